#!/usr/bin/env python3
"""Has many clients write and read at one `kcp serve` over HTTP, and checks that one order of all writes explains what each was told.

Each client creates, updates by version, deletes by uid, gets and lists a few ConfigMaps; some watch meanwhile, one of them from the
beginning on. The order is that of the revisions, as the first watch shows them. Then: each accepted write is one of its entries; each
update replaced just the version that it named; each answer is that of a state between its call and its answer; each watch shows
just the changes after its start, in order; one that begins with a stream of initial events shows first what a list at the revision of the
bookmark that closes them shows. With `--watchers N` so many more watch from the beginning on, each of which is to see every event once, in order.
Usage: run.py --program PATH [--seconds N] [--clients N] [--threads N] [--watchers N] [--seed N]
"""
import argparse
import http.client
import json
import pathlib
import random
import re
import subprocess
import sys
import threading
import time

from crowd import Crowd
from history import Call, History
from streams import Streamer

MAPS = "/api/v1/namespaces/default/configmaps"
NAMES = [f"map-{number}" for number in range(6)]
# How many watch from a revision on, the first from the beginning, and how many begin with streams of initial events, again and again.
WATCHERS, STREAMERS = 3, 2
PATIENCE = 60


class Client:
    """One client. What it asked and was told is in `calls`."""

    def __init__(self, port, seed):
        self.port, self.rolls, self.calls, self.known, self.seed = port, random.Random(seed), [], {}, seed

    def ask(self, kind, name, method, path, body=None, **more):
        """Asks over a connection of its own, and records the call."""
        connection = http.client.HTTPConnection("127.0.0.1", self.port, timeout=PATIENCE)
        text = None if body is None else json.dumps(body)
        asked = time.monotonic()
        connection.request(method, path, text, {"Content-Type": "application/json"} if text else {})
        reply = connection.getresponse()
        value = json.loads(reply.read())
        answered = time.monotonic()
        connection.close()
        self.calls.append(Call(kind, name, asked, answered, reply.status, value, **more))
        if kind in ("create", "update", "get"):
            self.known[name] = value if reply.status in (200, 201) else None

    def step(self):
        """Asks one thing at random."""
        name, roll = self.rolls.choice(NAMES), self.rolls.random()
        known = self.known.get(name)
        if roll < 0.3:
            self.ask("get", name, "GET", f"{MAPS}/{name}")
        elif roll < 0.35:
            self.ask("list", "", "GET", MAPS)
        elif known is None:
            body = {"metadata": {"name": name}, "data": {"by": f"{self.seed}-{len(self.calls)}"}}
            self.ask("create", name, "POST", MAPS, body)
        elif roll < 0.9:
            body = known | {"data": {"by": f"{self.seed}-{len(self.calls)}"}}
            self.ask("update", name, "PUT", f"{MAPS}/{name}", body, version=known["metadata"]["resourceVersion"])
        else:
            uid = known["metadata"]["uid"]
            self.ask("delete", name, "DELETE", f"{MAPS}/{name}", {"preconditions": {"uid": uid}}, uid=uid)
            self.known[name] = None

    def run(self, until):
        """Asks until a moment."""
        while time.monotonic() < until:
            self.step()


class Watcher:
    """A client that watches from a revision on, again and again, from where its last watch ended."""

    def __init__(self, port, start):
        self.port, self.start, self.events, self.connection, self.is_over = port, start, [], None, False

    def run(self):
        while not self.is_over:
            try:
                self.watch()
            except (OSError, http.client.HTTPException, ValueError, AttributeError):
                if not self.is_over:
                    raise

    def watch(self):
        """Takes in the events of one watch, up to its end."""
        self.connection = http.client.HTTPConnection("127.0.0.1", self.port, timeout=PATIENCE)
        self.connection.request("GET", f"{MAPS}?watch=true&resourceVersion={self.start + len(self.events)}")
        reply = self.connection.getresponse()
        while line := reply.readline():
            self.events.append(json.loads(line))

    def end(self, revision):
        """Waits until the events up to a revision are there, and ends."""
        until = time.monotonic() + PATIENCE
        while self.start + len(self.events) < revision and time.monotonic() < until:
            time.sleep(0.01)
        self.is_over = True


def serve(program, threads):
    """Starts the program, and returns it with its port."""
    words = [program, "serve", "--port", "0", "--window", "65536", "--threads", str(threads)]
    started = subprocess.Popen(words, stdout=subprocess.PIPE)
    return started, int(re.fullmatch(rb"listening 127\.0\.0\.1:(\d+)\n", started.stdout.readline())[1])


def side_by_side(targets):
    """Runs calls in threads of their own, and returns them."""
    threads = [threading.Thread(target=target, args=words, daemon=True) for target, *words in targets]
    for thread in threads:
        thread.start()
    return threads


def recorded(port, asked):
    """Has clients and watchers run, and returns their calls, the watchers, the streams, and what is wrong with a crowd."""
    clients = [Client(port, f"{asked.seed}.{number}") for number in range(asked.clients)]
    watchers, crowd = [Watcher(port, 1)], Crowd(port, MAPS, asked.watchers) if asked.watchers else None
    side_by_side([(watchers[0].run,)] + ([(crowd.run,)] if crowd else []))
    until = time.monotonic() + asked.seconds
    running = side_by_side([(client.run, until) for client in clients])
    streamers = [Streamer(port, MAPS, f"{asked.seed}.{number}") for number in range(STREAMERS)]
    side_by_side([(it.run,) for it in streamers])
    for number in range(1, WATCHERS):
        time.sleep(asked.seconds / (WATCHERS + 1))
        watchers.append(Watcher(port, 1 + len(watchers[0].events)))
        side_by_side([(watchers[-1].run,)])
    for thread in running:
        thread.join()
    last = Client(port, "last")
    last.ask("list", "", "GET", MAPS)
    for watcher in [*watchers, *streamers]:
        watcher.end(int(last.calls[0].value["metadata"]["resourceVersion"]))
    calls, streams = [call for client in [*clients, last] for call in client.calls], [it for streamer in streamers for it in streamer.streams]
    return calls, watchers, streams, faults_of(crowd, len(watchers[0].events)) + faults_of_ends(streamers)


def faults_of(crowd, events):
    """Waits until each watcher of a crowd has seen so many events, if there is one, and returns what is wrong then."""
    until, faults = time.monotonic() + PATIENCE, ["the crowd did not watch"]
    while crowd and faults and time.monotonic() < until:
        time.sleep(0.5)
        faults = crowd.faults(events)
    return faults if crowd else []


def faults_of_ends(streamers):
    """Returns what is wrong where the last stream of one did not show all."""
    return [f"the last of {len(it.streams)} streams showed all up to {it.streams[-1].reached()}, not to {it.last}" for it in streamers if not it.is_over()]


def main():
    parser = argparse.ArgumentParser(description=__doc__.splitlines()[0])
    parser.add_argument("--program", required=True)
    parser.add_argument("--seconds", type=float, default=5)
    parser.add_argument("--clients", type=int, default=16)
    parser.add_argument("--threads", type=int, default=24)
    parser.add_argument("--watchers", type=int, default=0)
    parser.add_argument("--seed", type=int, default=1)
    asked = parser.parse_args()
    started, port = serve(str(pathlib.Path(asked.program).resolve()), asked.threads)
    try:
        calls, watchers, streams, faults = recorded(port, asked)
    finally:
        started.kill()
    history = History(watchers[0].events, calls)
    if not history.faults:
        history.check_reads()
        for watcher in watchers[1:]:
            history.check_watch(watcher.start, watcher.events)
        for stream in streams:
            history.check_stream(stream)
    history.faults += faults
    for fault in history.faults[:10]:
        print(f"FAILED {fault}")
    kinds = {kind: sum(call.kind == kind for call in calls) for kind in ("create", "update", "delete", "get", "list")}
    refused = sum(call.code in (404, 409) for call in calls)
    print(
        f"{len(calls)} calls {kinds}, {refused} of them refused; {len(history.writes)} writes; {sum(len(it.events) for it in watchers)} events;"
        f" {len(streams)} streams, {sum(len(it.initial) for it in streams)} initial events and {sum(len(it.events) for it in streams)} after them"
    )
    is_good = not history.faults and len(history.writes) > 10
    print(f"{int(is_good)} passed, {int(not is_good)} failed")
    sys.exit(0 if is_good else 1)


if __name__ == "__main__":
    main()
