#!/usr/bin/env python3
"""Lets real clients use a running `kcp serve`: curl, and of Python's packages `requests` and `kubernetes`.

Each client that is not installed is skipped, and named. A client creates, reads, updates, patches, lists by a selector, watches and
deletes, and meets a conflict; what it is told has to be what it asked for.
Usage: run.py --program PATH [CLIENT ..]      CLIENT: curl, requests or kubernetes; all of them if left out
"""
import argparse
import importlib.util
import json
import pathlib
import shutil
import subprocess
import sys

sys.path.insert(0, str(pathlib.Path(__file__).resolve().parent.parent / "http"))
import run as http

MAPS = "/api/v1/namespaces/default/configmaps"
COUNT = 1_000_000


def check(name, is_so, told):
    """Ends the run where something is not so."""
    if not is_so:
        sys.exit(f"FAILED {name}: {told!r}")


class Curl:
    """The command-line client."""

    name = "curl"

    def is_installed(self):
        return shutil.which("curl") is not None

    def ask(self, method, path, body=None, kind="application/json"):
        """Returns the code and the value of a reply."""
        words = ["curl", "-sS", "--max-time", "60", "-X", method, "-w", "\n%{http_code}", self.root + path]
        if body is not None:
            words += ["-H", f"Content-Type: {kind}", "-d", json.dumps(body)]
        text, code = subprocess.run(words, capture_output=True, check=True, text=True).stdout.rsplit("\n", 1)
        return int(code), json.loads(text)

    def watched(self, path):
        """Returns the events of a watch up to its end."""
        ran = subprocess.run(["curl", "-sS", "-N", "--max-time", "60", self.root + path], capture_output=True, check=True, text=True)
        return [json.loads(line) for line in ran.stdout.splitlines()]


class Requests:
    """Python's `requests`."""

    name = "requests"

    def is_installed(self):
        return importlib.util.find_spec("requests") is not None

    def ask(self, method, path, body=None, kind="application/json"):
        """Returns the code and the value of a reply."""
        import requests

        headers = {"Content-Type": kind} if body is not None else {}
        data = json.dumps(body) if body is not None else None
        reply = requests.request(method, self.root + path, data=data, headers=headers, timeout=60)
        return reply.status_code, reply.json()

    def watched(self, path):
        """Returns the events of a watch up to its end."""
        import requests

        with requests.get(self.root + path, stream=True, timeout=60) as reply:
            return [json.loads(line) for line in reply.iter_lines()]


def use(client):
    """What both of them do."""
    made = {"metadata": {"name": "a", "labels": {"app": "web"}}, "data": {"k": "v"}}
    code, first = client.ask("POST", MAPS, made)
    check("create", code == 201 and first["metadata"]["resourceVersion"] == "2", (code, first))
    code, got = client.ask("GET", f"{MAPS}/a")
    check("get", code == 200 and got == first, (code, got))
    first["data"] = {"k": "w"}
    code, put = client.ask("PUT", f"{MAPS}/a", first)
    check("update", code == 200 and put["data"] == {"k": "w"} and put["metadata"]["resourceVersion"] == "3", (code, put))
    code, told = client.ask("PUT", f"{MAPS}/a", first | {"data": {"k": "late"}})
    check("conflict", code == 409 and told["reason"] == "Conflict", (code, told))
    code, patched = client.ask("PATCH", f"{MAPS}/a", {"data": {"m": "n"}}, "application/merge-patch+json")
    check("patch", code == 200 and patched["data"] == {"k": "w", "m": "n"}, (code, patched))
    code, listed = client.ask("GET", f"{MAPS}?labelSelector=app%3Dweb")
    check("list", code == 200 and [it["metadata"]["name"] for it in listed["items"]] == ["a"], (code, listed))
    code, listed = client.ask("GET", f"{MAPS}?labelSelector=app!%3Dweb")
    check("list of others", code == 200 and listed["items"] == [], (code, listed))
    code, gone = client.ask("DELETE", f"{MAPS}/a")
    check("delete", code == 200 and gone["status"] == "Success", (code, gone))
    code, told = client.ask("GET", f"{MAPS}/a")
    check("get of nothing", code == 404 and told["reason"] == "NotFound", (code, told))
    events = client.watched(f"{MAPS}?watch=true&resourceVersion=2")
    kinds = [event["type"] for event in events]
    check("watch", kinds == ["MODIFIED", "MODIFIED", "DELETED"], events)


def use_kubernetes(root):
    """What Python's `kubernetes` does."""
    from kubernetes import client, watch
    from kubernetes.client.rest import ApiException

    settings = client.Configuration()
    settings.host = root
    core = client.CoreV1Api(client.ApiClient(settings))
    made = core.create_namespaced_config_map("default", {"metadata": {"name": "a"}, "data": {"k": "v"}})
    check("create", made.metadata.resource_version == "2", made)
    listed = core.list_namespaced_config_map("default")
    check("list", [it.metadata.name for it in listed.items] == ["a"], listed)
    made.data = {"k": "w"}
    put = core.replace_namespaced_config_map("a", "default", made)
    check("update", put.data == {"k": "w"}, put)
    try:
        core.replace_namespaced_config_map("a", "default", made)
        check("conflict", False, "no conflict")
    except ApiException as error:
        check("conflict", error.status == 409, error)
    seen = [event["type"] for event in watch.Watch().stream(core.list_namespaced_config_map, "default", resource_version="2", timeout_seconds=60)]
    check("watch", seen == ["MODIFIED"], seen)
    core.delete_namespaced_config_map("a", "default")


def main():
    parser = argparse.ArgumentParser(description=__doc__.splitlines()[0])
    parser.add_argument("--program", required=True)
    parser.add_argument("client", nargs="*")
    asked = parser.parse_args()
    clients = [it for it in (Curl(), Requests()) if not asked.client or it.name in asked.client]
    used = 0
    for client in clients:
        if not client.is_installed():
            print(f"skipped: {client.name} is not installed")
            continue
        started, port = http.serve(asked.program, COUNT)
        client.root = f"http://127.0.0.1:{port}"
        try:
            use(client)
        finally:
            started.kill()
        used += 1
    if not asked.client or "kubernetes" in asked.client:
        if importlib.util.find_spec("kubernetes"):
            started, port = http.serve(asked.program, COUNT)
            try:
                use_kubernetes(f"http://127.0.0.1:{port}")
            finally:
                started.kill()
            used += 1
        else:
            print("skipped: kubernetes is not installed")
    print(f"{used} passed, 0 failed")


if __name__ == "__main__":
    main()
