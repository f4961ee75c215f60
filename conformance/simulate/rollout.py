#!/usr/bin/env python3
"""Drives a whole rollout of a Deployment in `kcp simulate`, and its collection.

A Deployment of three pods is created; its ReplicaSet appears, and the pods of that. The script marks pods ready, as a kubelet does. The
template is changed, and a second ReplicaSet grows as the first shrinks. The Deployment is deleted, and all that it owned is collected.
At each end it is checked what is there; `--page` writes all of it as a page (tools/trace.py). Change the script to see what comes of another order.

Usage: rollout.py --program PATH [--workers N] [--verbose] [--page FILE]
"""
import argparse
import pathlib
import sys

sys.dont_write_bytecode = True
HERE = pathlib.Path(__file__).resolve().parent
sys.path[:0] = [str(HERE), str(HERE.parent.parent / "tools")]
import plane
from tracing.page import page
from tracing.steps import read

NAME = "web"
REPLICAS = 3
MOST_STEPS = 50


class Wrong(Exception):
    """Something is not there, or is there and should not be."""


def check(holds, text):
    """Ends the script where something does not hold."""
    if not holds:
        raise Wrong(text)


def deployment(image):
    """Returns the Deployment that is created."""
    labels = {"app": NAME}
    template = {"metadata": {"labels": labels}, "spec": {"containers": [{"name": NAME, "image": image}]}}
    return {"metadata": {"name": NAME}, "spec": {"replicas": REPLICAS, "selector": {"matchLabels": labels}, "template": template}}


def ready(name):
    """Returns a Pod that says that it is ready."""
    return {"metadata": {"name": name}, "status": {"phase": "Running", "conditions": [{"type": "Ready", "status": "True"}]}}


def is_ready(pod):
    """Returns whether a Pod says that it is ready."""
    conditions = pod.get("status", {}).get("conditions", [])
    return any(it["type"] == "Ready" and it["status"] == "True" for it in conditions)


def image_of(pod):
    """Returns the image that a Pod runs."""
    return pod["spec"]["containers"][0]["image"]


def named(control, kind):
    """Returns the objects of a kind by name."""
    return {name: it for (_, name), it in control.objects(kind)[0].items()}


def kubelet(control):
    """Marks all pods ready that are not yet, and returns whether there were any."""
    waiting = [name for name, pod in named(control, "pods").items() if not is_ready(pod)]
    for name in waiting:
        control.update_status("pods", name, ready(name))
    return bool(waiting)


def roll(control, image):
    """Goes on until nothing is to do, the kubelet's part included. Meanwhile there are never more pods than one above what is wanted,
    and, once so many were ready, never fewer than wanted that are ready."""
    were_ready = 0
    for _ in range(MOST_STEPS):
        control.settle()
        pods = named(control, "pods")
        count = sum(map(is_ready, pods.values()))
        check(len(pods) <= REPLICAS + 1, f"there are {len(pods)} pods")
        check(count >= REPLICAS or were_ready < REPLICAS, f"only {count} pods are ready")
        were_ready = max(were_ready, count)
        print(f"{len(pods)} pods, {count} ready, {sum(image_of(it) == image for it in pods.values())} of the present template")
        if not kubelet(control):
            return
    raise Wrong(f"the rollout has not ended after {MOST_STEPS} rounds")


def check_rolled_out(control, image, sets):
    """Checks that the Deployment has what it asks for: ready pods of the present template, and so many ReplicaSets, one of them in use."""
    pods = named(control, "pods").values()
    check(len(pods) == REPLICAS and all(map(is_ready, pods)), "not all pods are there and ready")
    check(all(image_of(it) == image for it in pods), "a pod is not of the present template")
    wanted = sorted(it["spec"]["replicas"] for it in named(control, "replicasets").values())
    check(wanted == [0] * (sets - 1) + [REPLICAS], f"the sets ask for {wanted} pods")
    status = named(control, "deployments")[NAME]["status"]
    counts = {it: status.get(it) for it in ("replicas", "updatedReplicas", "readyReplicas", "availableReplicas", "unavailableReplicas")}
    check(list(counts.values()) == [REPLICAS] * 4 + [0], f"the Deployment's status says {counts}")


def check_gone(control):
    """Checks that nothing is left."""
    for kind in plane.KINDS:
        left = sorted(named(control, kind))
        check(not left, f"left of {kind}: {', '.join(left)}")


def whole_rollout(control):
    """Creates a Deployment, changes its template and deletes it."""
    print("a Deployment is created")
    control.create("deployments", deployment("web:1"))
    roll(control, "web:1")
    check_rolled_out(control, "web:1", sets=1)
    print("its template is changed")
    control.patch("deployments", NAME, {"spec": {"template": deployment("web:2")["spec"]["template"]}})
    roll(control, "web:2")
    check_rolled_out(control, "web:2", sets=2)
    print("it is deleted")
    control.delete("deployments", NAME, "Background")
    control.settle()
    check_gone(control)
    print("nothing is left")


class Log:
    """Keeps the lines that are sent and what is written for them, and prints them where that is asked for."""

    def __init__(self, is_verbose):
        self.is_verbose, self.lines, self.outcomes = is_verbose, [], []

    def told(self, line, reply):
        self.lines.append(line)
        self.outcomes.append(reply)
        if self.is_verbose:
            print(f"  {line}\n    {reply}")

    def write(self, file):
        """Writes the page of it all."""
        file.write_text(page("a rollout", read("\n".join(self.lines), "\n".join(self.outcomes))), encoding="utf-8")


def main():
    parser = argparse.ArgumentParser(description=__doc__.splitlines()[0])
    plane.add_program(parser)
    parser.add_argument("--workers", type=int, default=2)
    parser.add_argument("--verbose", action="store_true")
    parser.add_argument("--page", type=pathlib.Path, metavar="FILE", help="where to write the page of it")
    asked = parser.parse_args()
    log = Log(asked.verbose)
    try:
        with plane.Plane(plane.words_of(asked.program), window=64, workers=asked.workers, told=log.told) as control:
            whole_rollout(control)
    except (Wrong, plane.Broken) as error:
        print(f"FAILED {error}\n0 passed, 1 failed")
        sys.exit(1)
    finally:
        if asked.page:
            log.write(asked.page)
    print("1 passed, 0 failed")


if __name__ == "__main__":
    main()
