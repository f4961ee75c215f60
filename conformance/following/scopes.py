#!/usr/bin/env python3
"""Has followers of scopes keep their copies of a `kcp serve` while a client writes: of all ConfigMaps, of a namespace, of a selector, and of both.

The follower is the program `watch_example`, one for each scope. A client creates, relabels and deletes ConfigMaps of two namespaces, so that they
come into each scope and leave it; the last write is in all of them. Each copy has to be the server's list of that scope, and each told change to
fit what was there. A namespace and a selector that there cannot be are refused before anything is asked.
Usage: scopes.py --program PATH [--follower PATH] [--writes N] [--seed N]
"""
import argparse
import random
import subprocess
import sys
import urllib.parse

sys.dont_write_bytecode = True
from run import LIMIT_SECONDS, PATIENCE, Client, built, replayed, serve

SELECTOR = "app in (web, api),tier!=cache,!old"
SCOPES = {"all": (None, None), "a namespace": ("one", None), "a selector": (None, SELECTOR), "both": ("one", SELECTOR)}
LABELS = [{"app": "web"}, {"app": "api", "tier": "cache"}, {"app": "api"}, {"app": "db"}, {"app": "web", "old": ""}, {}]
REFUSED = [["--namespace", "a/b"], ["--namespace", "One"], ["--selector", "app in web"], ["--until", "soon"], ["--namespace"], ["--label", "app"]]
NAMES = 8


def words_of(scope):
    """Returns the words that ask for a scope."""
    namespace, selector = scope
    return (["--namespace", namespace] if namespace else []) + (["--selector", selector] if selector else [])


def listed(port, scope):
    """Returns the server's list of a scope as the follower prints it."""
    namespace, selector = scope
    path = f"/api/v1/namespaces/{namespace}/configmaps" if namespace else "/api/v1/configmaps"
    query = f"?labelSelector={urllib.parse.quote(selector)}" if selector else ""
    _, value = Client(port, 0, 0).ask("GET", path + query)
    return {f"{it['metadata']['namespace']}/{it['metadata']['name']}": it["metadata"]["resourceVersion"] for it in value["items"]}


class Writer:
    """A client that writes to two namespaces."""

    def __init__(self, port, seed):
        self.client, self.rolls, self.known, self.refused = Client(port, 0, seed), random.Random(seed), set(), 0

    def write(self, namespace, name, labels):
        """Makes a write that has to be accepted: a delete where no labels are given."""
        path, value = f"/api/v1/namespaces/{namespace}/configmaps", {"metadata": {"name": name, "labels": labels}}
        if labels is None:
            status, _ = self.client.ask("DELETE", f"{path}/{name}")
            self.known.discard((namespace, name))
        elif (namespace, name) in self.known:
            status, _ = self.client.ask("PUT", f"{path}/{name}", value | {"data": {"count": str(self.rolls.random())}})
        else:
            status, _ = self.client.ask("POST", path, value)
            self.known.add((namespace, name))
        self.refused += status not in (200, 201)

    def run(self, writes):
        """Makes so many writes, the last into each scope, and returns the revision of that."""
        for _ in range(writes):
            place = self.rolls.choice(["one", "two"]), f"map-{self.rolls.randrange(NAMES)}"
            self.write(*place, None if place in self.known and self.rolls.random() < 0.2 else self.rolls.choice(LABELS))
        self.write("one", "last", {"app": "web"})
        _, value = self.client.ask("GET", "/api/v1/namespaces/one/configmaps/last")
        return int(value["metadata"]["resourceVersion"])


def follow(follower, port, scope, until):
    """Starts a follower of a scope."""
    words = [follower, "--server", f"127.0.0.1:{port}", "ConfigMap", *words_of(scope), "--until", str(until)]
    return subprocess.Popen(words, stdout=subprocess.PIPE, text=True, encoding="utf-8")


def faults(name, ran, rows):
    """Says what is wrong with what a follower wrote, and returns how much is."""
    try:
        text, _ = ran.communicate(timeout=LIMIT_SECONDS)
    except subprocess.TimeoutExpired:
        ran.kill()
        text, _ = ran.communicate()
    made, printed, _, wrong = replayed(text.splitlines())
    checks = {
        "it ended by itself": ran.returncode == 0,
        "its copy is the server's list": printed == rows,
        "the changes that it told make that list": made == rows,
        "each change fits what was there": not wrong,
    }
    for what in (what for what, holds in checks.items() if not holds):
        print(f"FAILED {name}: {what}")
    print(f"{name}: {len(text.splitlines())} lines, {len(rows)} objects")
    return [not holds for holds in checks.values()]


def refusals(follower):
    """Returns for each words that are bad arguments whether the follower took them."""
    wrong = []
    for words in REFUSED:
        ran = subprocess.run([follower, "--server", "127.0.0.1:1", "ConfigMap", *words], capture_output=True, timeout=PATIENCE)
        wrong.append((ran.returncode, ran.stderr) != (2, b"watch_example: bad arguments\n"))
        if wrong[-1]:
            print(f"FAILED {' '.join(words)}: it ended with {ran.returncode}")
    return wrong


def main():
    parser = argparse.ArgumentParser(description=__doc__.splitlines()[0])
    parser.add_argument("--program", required=True)
    parser.add_argument("--follower")
    parser.add_argument("--writes", type=int, default=500)
    parser.add_argument("--seed", type=int, default=1)
    asked = parser.parse_args()
    follower = built(asked.follower)
    server, port = serve(asked.program)
    try:
        writer, until = Writer(port, asked.seed), asked.writes + 2
        started = {name: follow(follower, port, scope, until) for name, scope in SCOPES.items()}
        last = writer.run(asked.writes)
        wrong = [writer.refused > 0, last != until]
        for name, ran in started.items():
            wrong += faults(name, ran, listed(port, SCOPES[name]))
    finally:
        server.terminate()
        server.wait(PATIENCE)
    wrong += refusals(follower)
    print(f"{len(wrong) - sum(wrong)} passed, {sum(wrong)} failed")
    return 1 if any(wrong) else 0


if __name__ == "__main__":
    sys.exit(main())
