#!/usr/bin/env python3
"""Runs each row of docs/KUBECTL.md with kubectl against `kcp all`: what is said to work has to, and what does not has to be answered as is said.

Each command begins with a program of its own that has a Deployment with three ready pods, a Pod and a ConfigMap. The commands in the last
column, which stand in the place of those that do not work, have to work too. Where kubectl is not installed, it is skipped, and named.
Usage: kubectl.py --program PATH [--kubectl PATH] [--jobs N] [WORD]      WORD: only commands that have it
"""
import argparse
import json
import os
import pathlib
import re
import shutil
import subprocess
import sys
import tempfile
import time
from concurrent.futures import ThreadPoolExecutor

sys.dont_write_bytecode = True
HERE = pathlib.Path(__file__).resolve().parent
ROOT = HERE.parent.parent
sys.path[:0] = [str(ROOT / "conformance" / "controllers"), str(ROOT / "tools")]
import kubectl_cache
import programs

PAGE = ROOT / "docs" / "KUBECTL.md"
SECONDS = 60
COMMAND = re.compile(r"`(kubectl (?:[^`\\]|\\.)*)`")
# What kubectl says of an answer, as it tells requests with `-v=6`, or of none.
ANSWERS = {
    "400": "400 Bad Request",
    "404": "404 Not Found",
    "405": "405 Method Not Allowed",
    "411": "411 Length Required",
    "415": "415 Unsupported Media Type",
    "times out": "timed out waiting",
}
# From which minor version on kubectl has a command, and from which on it is answered as the page says, where that is after 1.20.
HAD_SINCE = {"--subresource": 24, "--for=jsonpath": 23}
ANSWERED_SINCE = {"create deployment": 32, "create configmap": 32, "kubectl diff": 29, "replace --raw": 29, "--dry-run=server": 27, "api-resources": 27}
MAPS = "/api/v1/namespaces/default/configmaps"
PODS = "/api/v1/namespaces/default/pods"
SETS = "/apis/apps/v1/namespaces/default/replicasets"
DEPLOYMENTS = "/apis/apps/v1/namespaces/default/deployments"


def deployment(name, image):
    """Returns a Deployment of three pods."""
    labels = {"app": name}
    template = {"metadata": {"labels": labels}, "spec": {"containers": [{"name": name, "image": image}]}}
    spec = {"replicas": 3, "selector": {"matchLabels": labels}, "template": template}
    return {"apiVersion": "apps/v1", "kind": "Deployment", "metadata": {"name": name}, "spec": spec}


def config_map(name):
    """Returns a ConfigMap."""
    return {"apiVersion": "v1", "kind": "ConfigMap", "metadata": {"name": name}, "data": {"k": "v"}}


FILES = {
    "web.yaml": deployment("web", "web:1"),
    "changed.yaml": deployment("web", "web:2"),
    "new.yaml": deployment("new", "new:1"),
    "new.json": config_map("new"),
    "settings.json": config_map("settings"),
}


def rows(text, heading):
    """Returns the cells of each row of the table below a heading."""
    section = text.partition(f"\n## {heading}\n")[2].partition("\n## ")[0]
    lines = [line for line in section.splitlines() if line.startswith("| ")][1:]
    return [[cell.strip().replace("\\|", "|") for cell in re.split(r"(?<!\\)\|", line)[1:-1]] for line in lines]


def commands_of(cell):
    """Returns the commands that stand in a cell."""
    return [found[1] for found in COMMAND.finditer(cell)]


def trials(text):
    """Returns what is to be tried: pairs of a command and its answer, which is none where it works."""
    for cells in rows(text, "What works"):
        yield from ((command, None) for command in commands_of(cells[0]))
    for command_cell, answer, instead in rows(text, "What does not"):
        yield from ((command, answer.split(",")[0]) for command in commands_of(command_cell))
        found = commands_of(instead)
        yield from [(" && ".join(found), None)] if found else []


class Scene:
    """A `kcp all` with a Deployment whose pods are ready, a Pod and a ConfigMap, and a folder with files for kubectl."""

    def __init__(self, program, room):
        self.running, self.room = programs.all_in_one(program, threads=4), room
        server = f"http://127.0.0.1:{self.running.port}"
        kubectl_cache.write(room, server)
        for name, value in FILES.items():
            (room / name).write_text(json.dumps(value), encoding="utf-8")
        last = {"kubectl.kubernetes.io/last-applied-configuration": json.dumps(FILES["web.yaml"])}
        self.create(DEPLOYMENTS, FILES["web.yaml"] | {"metadata": {"name": "web", "annotations": last}})
        self.create(MAPS, FILES["settings.json"])
        for pod in self.awaited(lambda: pods if len(pods := self.items(PODS)) == 3 else None):
            pod["status"] = {"phase": "Running", "conditions": [{"type": "Ready", "status": "True"}]}
            self.ask("PUT", f"{PODS}/{pod['metadata']['name']}/status", pod)
        self.create(PODS, {"metadata": {"name": "a"}, "spec": {"containers": [{"name": "a", "image": "a:1"}]}})
        self.awaited(lambda: self.items(DEPLOYMENTS)[0]["status"].get("availableReplicas") == 3)

    def roll(self):
        """Changes the Deployment's template, so that there is a revision to go back to."""
        self.ask("PUT", f"{DEPLOYMENTS}/web", FILES["changed.yaml"])
        self.awaited(lambda: len(self.items(SETS)) == 2)

    def ask(self, method, path, body=None):
        """Asks the server by a line, and returns the value of its reply."""
        code, value = self.running.answered(" ".join([method, path, *([json.dumps(body)] if body else [])]))
        if code > 299:
            sys.exit(f"FAILED {method} {path}: {value}")
        return value

    def create(self, path, body):
        self.ask("POST", path, body)

    def items(self, path):
        return self.ask("GET", path)["items"]

    def awaited(self, found):
        """Returns what is found once it is there."""
        until = time.monotonic() + SECONDS
        while not (it := found()):
            if time.monotonic() > until:
                sys.exit("FAILED: the controllers did not make what the commands begin with")
            time.sleep(0.005)
        return it

    def run(self, kubectl, command):
        """Runs a command, and returns its status and what it printed."""
        function = f'kubectl() {{ "{kubectl}" --kubeconfig "{self.room}/config" --cache-dir "{self.room}" "$@"; }}\nset -o pipefail\n'
        settings = {**os.environ, "EDITOR": "sed -i /k:/s/v/w/", "HOME": str(self.room), "TMPDIR": str(self.room)}
        how = {"cwd": self.room, "env": settings, "stdin": subprocess.DEVNULL, "stdout": subprocess.PIPE, "stderr": subprocess.STDOUT}
        ran = subprocess.run(["bash", "-c", function + command], text=True, timeout=SECONDS, **how)
        return ran.returncode, ran.stdout


def fault_of(program, kubectl, command, answer):
    """Returns what is not as the page says of a command, or nothing."""
    with tempfile.TemporaryDirectory() as folder:
        scene = Scene(program, pathlib.Path(folder))
        try:
            if "undo" in command:
                scene.roll()
            status, printed = scene.run(kubectl, command if answer is None else command.replace("kubectl ", "kubectl -v=6 ", 1))
        finally:
            scene.running.kill()
    if answer is None:
        return f"status {status}: {printed[-400:]}" if status else None
    return None if status and ANSWERS[answer] in printed else f"not {answer}, status {status}: {printed[-400:]}"


def minor_version(kubectl):
    """Returns the minor version of a kubectl, as 32 of 1.32."""
    ran = subprocess.run([kubectl, "version", "--client", "-o", "json"], capture_output=True, text=True, timeout=SECONDS)
    return int(re.match(r"\d+", json.loads(ran.stdout)["clientVersion"]["minor"])[0])


def main():
    parser = argparse.ArgumentParser(description=__doc__.splitlines()[0])
    parser.add_argument("--program", required=True)
    parser.add_argument("--kubectl", default=shutil.which("kubectl"))
    parser.add_argument("--jobs", type=int, default=4, help="how many commands run at once")
    parser.add_argument("word", nargs="?", default="")
    asked = parser.parse_args()
    if not asked.kubectl:
        print("skipped: kubectl is not installed\n0 passed, 0 failed")
        return
    program, version, tried = str(pathlib.Path(asked.program).resolve()), minor_version(asked.kubectl), []
    for command, answer in trials(PAGE.read_text(encoding="utf-8")):
        if asked.word not in command:
            continue
        since = HAD_SINCE | (ANSWERED_SINCE if answer else {})
        if later := [minor for word, minor in since.items() if word in command and version < minor]:
            print(f"skipped: as the page says since 1.{later[0]}, and this is 1.{version}: {command}")
        else:
            tried.append((command, answer))
    with ThreadPoolExecutor(asked.jobs) as pool:
        faults = list(pool.map(lambda it: fault_of(program, asked.kubectl, *it), tried))
    for (command, _), fault in zip(tried, faults):
        if fault:
            print(f"FAILED {command}: {fault}")
    failed = len(faults) - faults.count(None)
    passed = len(faults) - failed
    print(f"{passed} passed, {failed} failed")
    sys.exit(1 if failed or not passed else 0)


if __name__ == "__main__":
    main()
