"""A ReplicaSet that takes in a pod whose labels match, and lets go of one whose labels no longer do; and one that a line declares."""
import json
import subprocess

from clients import Client, path
from objects import controller, name, owners, pod, replica_set, staying, uid
from programs import Ending, all_in_one
from waiting import Limit, check, until

SET = "web"
REPLICAS = 3
# Several times as many bytes as a body may have.
LONG_BODY = 5_000_000
EMPTY_LIST = b'200 {"apiVersion":"v1","items":[],"kind":"ConfigMapList","metadata":{"resourceVersion":"1"}}\n'


def settled(client, owner, others):
    """Returns the pods whose controller has this uid, where there are as many as the set asks for, and so many other pods."""
    pods = staying(client.present("pods"))
    own = [it for it in pods if controller(it) == owner]
    return own if (len(own), len(pods)) == (REPLICAS, REPLICAS + others) else None


def adopts_and_releases(program):
    """A pod whose labels match is adopted and counts; one whose label is changed is released, stays, and is replaced.

    The set may make all its pods before it sees the one that it is to adopt: then it takes away one of its own, which costs less to delete.
    """
    with Ending(all_in_one(program)) as running:
        client = Client(running.programs[0].port)
        lone, other = client.create("pods", pod("lone", {"set": SET})), client.create("pods", pod("other", {"set": "else"}))
        owner = uid(client.create("replicasets", replica_set(SET, REPLICAS)))
        own = until(lambda: settled(client, owner, 1), "there are not 3 pods of the set, and one other")
        check(uid(lone) in map(uid, own), "the pod whose labels match was not adopted")
        check(not owners(client.get("pods", name(other))), "the pod whose labels do not match was adopted")
        client.patch("pods", name(lone), {"metadata": {"labels": {"set": "else"}}})
        own = until(lambda: settled(client, owner, 2), "the pod whose label was changed was not released and replaced")
        check(uid(lone) not in map(uid, own), "the pod whose label was changed was not released")
        check(not owners(client.get("pods", name(lone))), "the pod that was released still names an owner")
        client.patch("pods", name(lone), {"metadata": {"labels": {"set": SET}}})
        own = until(lambda: settled(client, owner, 1), "the pod was not taken in again, and one too many taken away")
        check(uid(lone) in map(uid, own), "the pod that was taken in again was taken away, though others cost less")
        client.delete("replicasets", SET, "Background")
        until(lambda: [uid(it) for it in client.present("pods")] == [uid(other)], "not just the set's pods were collected")
        return "one pod adopted, released, and taken in again"


def answers_one_line(program):
    """One line is answered, and the program ends with its input."""
    ran = subprocess.run([program, "all", "--port", "0"], input=b"GET /api/v1/configmaps\n", capture_output=True, timeout=Limit.seconds)
    check((ran.returncode, ran.stdout) == (0, EMPTY_LIST), f"it ended with {ran.returncode} and wrote {ran.stdout!r}")
    return "the empty list, and an end with 0"


def answers_lines(program):
    """Request lines of the standard input and requests over HTTP are answered of the same objects."""
    with Ending(all_in_one(program)) as running:
        started = running.programs[0]
        client = Client(started.port)
        code, created = started.answered(f"POST {path('replicasets')} {json.dumps(replica_set(SET, REPLICAS))}")
        check(code == 201, f"a create of a line was answered {code}: {created}")
        until(lambda: settled(client, uid(created), 0), "the set that a line declared has not got its pods")
        for it in [path("pods"), path("replicasets", SET)]:
            # A status may be written between the two.
            until(lambda: started.answered(f"GET {it}") == (200, client.ask("GET", it)), f"a line and HTTP are answered otherwise: {it}")
        for line in ["AT 2026-01-01T00:00:00Z", "COMPACT 1", "no request"]:
            code, _ = started.answered(line)
            check(code == 400, f"the line {line!r} was answered {code}")
        # A server refuses such a body by its head, and may close the connection while it is written.
        long_body = json.dumps({"metadata": {"name": "long"}, "data": {"text": "x" * LONG_BODY}})
        for wanted, target in [(413, path("configmaps")), (404, path("configmaps") + "/a/b/c")]:
            code, _ = started.answered(f"POST {target} {long_body}")
            check(code == wanted, f"a line with a body of {len(long_body):,} bytes was answered {code}")
        code, _ = started.answered(f"DELETE {path('replicasets', SET)}")
        check(code == 200, f"a delete of a line was answered {code}")
        until(lambda: not client.present("pods"), "its pods were not collected")
        return "a set declared by a line, its pods read both ways"
