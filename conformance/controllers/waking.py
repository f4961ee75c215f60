"""A worker that sleeps is woken by work. By itself it looks again after a second: here the clock stands still, so that this second is never over."""
import tempfile

from clients import Client
from hurried import SOURCE, built
from objects import replica_set
from programs import Ending, control, server
from waiting import until

SETS, WORKERS = 5, 2


def settle(client, name):
    """Declares a set of one pod, and waits until it says that it has it."""
    client.create("replicasets", replica_set(name, 1))
    until(lambda: client.get("replicasets", name).get("status", {}).get("replicas") == 1, f"{name} has not got its pod")


def woken(program):
    """Sets are declared one after another, each once the workers have nothing left to do, at controllers whose clock stands still."""
    serving = server(program)
    with tempfile.TemporaryDirectory() as room:
        still = {"LD_PRELOAD": str(built(SOURCE, room)), "HURRIED": "0"}
        with Ending(serving, control(program, serving.port, WORKERS, still)):
            client = Client(serving.port)
            for number in range(SETS):
                settle(client, f"set-{number}")
            return f"{SETS} sets, one after another, while the clock stood still"
