"""Controllers that end by themselves after so many turns of their workers (`--turns`), and say nothing."""
from clients import Client
from objects import replica_set, staying
from programs import WORKERS, Ending, control, server
from waiting import Limit, check

PODS = 2
# What a set with its pods surely owes controllers that begin: a turn of each controller that looks at the set, and one for each pod.
SURE = 2 + PODS


def run(program, port, workers, turns):
    """Runs controllers that are to end after so many turns, waits until they have, and checks that they wrote nothing."""
    running = control(program, port, workers, more=["--turns", turns])
    try:
        running.await_end(f"after {Limit.seconds:g} s")
        for stream in (running.errors, running.output):
            line = running.next_line(stream)
            check(line == b"", f"{running.told()} wrote {line!r}")
    finally:
        running.kill()


def ended_after(program):
    """One worker has one turn: it makes the pods of a set, whose status has none of them yet, since the turn began before they were there. Then
    controllers begin where the pods are, and end after as many turns as they surely have."""
    serving = server(program)
    with Ending(serving):
        client = Client(serving.port)
        client.create("replicasets", replica_set("web", PODS))
        run(program, serving.port, 1, 1)
        pods, status = len(staying(client.present("pods"))), client.get("replicasets", "web")["status"]
        check(pods == PODS, f"after one turn there are {pods} of {PODS} pods")
        check((status.get("observedGeneration"), status["replicas"]) == (1, 0), f"after one turn the status is {status}")
        run(program, serving.port, WORKERS, SURE)
        pods = len(staying(client.present("pods")))
        check(pods == PODS, f"after {SURE} turns more there are {pods} of {PODS} pods")
        return f"after 1 turn, and after {SURE}"
