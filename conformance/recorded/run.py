#!/usr/bin/env python3
"""Replays the recorded bytes of a real API server to a follower, in pieces of many sizes and cut at many places.

The follower is the program `watch_example`. Each case is a list and the watches after it. The server that was recorded refuses streams of
initial events, so that the follower lists; each case is tried with either code by which servers refuse, and once more as a later server would
answer: the list's objects come as initial events, with the bookmark that closes them. What the follower has at the end is compared
with what this script makes of the same list and frames, and the number of lists or streams says whether it could read what came: after what
it cannot read it asks for all again.
Usage: run.py [--follower PATH] [--seed N]
"""
import argparse
import contextlib
import json
import pathlib
import random
import re
import socket
import subprocess
import sys
import threading

HERE = pathlib.Path(__file__).resolve().parent
sys.dont_write_bytecode = True
sys.path[1:1] = [str(HERE.parent / "following")]
from asking import LIST, LOOK, STREAM, WATCH, asked_for, refusal

CRATES = HERE.parent.parent / "crates"
LIMIT_SECONDS = 60
BUILD_SECONDS = 3600
CUTS = 12
# How streams of initial events are answered: they are given, or refused with a status code.
WAYS = {"streamed": None, "refused with 422": 422, "refused with 400": 400}
API_VERSIONS = {"ConfigMap": "v1", "Pod": "v1", "Deployment": "apps/v1"}


def recorded(name):
    """Returns the bytes of a recorded reply, and its body."""
    text = (HERE / f"{name}.http").read_bytes()
    head, rest = text.split(b"\r\n\r\n", 1)
    body = b""
    while size := int(rest.split(b"\r\n", 1)[0], 16):
        rest = rest.split(b"\r\n", 1)[1]
        body, rest = body + rest[:size], rest[size + 2 :]
    return text, head, body


def chunked(head, frames):
    """Returns a reply whose chunks are these frames."""
    return head + b"\r\n\r\n" + b"".join(b"%x\r\n%s\r\n" % (len(frame), frame) for frame in frames) + b"0\r\n\r\n"


def frames_of(body):
    """Returns the frames of a watch, each with its revision."""
    lines = body.splitlines(keepends=True)
    return [(line, int(json.loads(line)["object"]["metadata"].get("resourceVersion", "0"))) for line in lines]


def expected(lists, watches):
    """Returns what there is after a list and watches, and its revision."""
    value = json.loads(lists)
    revision = int(value["metadata"]["resourceVersion"])
    there = {(it["metadata"]["namespace"], it["metadata"]["name"]): it["metadata"]["resourceVersion"] for it in value["items"]}
    for line, at in watches:
        event = json.loads(line)
        meta, revision = event["object"]["metadata"], at
        if event["type"] in ("ADDED", "MODIFIED"):
            there[meta["namespace"], meta["name"]] = meta["resourceVersion"]
        elif event["type"] == "DELETED":
            there.pop((meta["namespace"], meta["name"]))
    return {f"{namespace}/{name}": version for (namespace, name), version in there.items()}, revision


def initial_events(kind, head, body):
    """Returns the reply of a later server that is asked for a stream of initial events: the objects of a list, the bookmark that closes them, and
    the end that a time-out puts."""
    value, named = json.loads(body), {"kind": kind, "apiVersion": API_VERSIONS[kind]}
    closing = {"resourceVersion": value["metadata"]["resourceVersion"], "creationTimestamp": None, "annotations": {"k8s.io/initial-events-end": "true"}}
    events = [{"type": "ADDED", "object": named | it} for it in value["items"]] + [{"type": "BOOKMARK", "object": named | {"metadata": closing}}]
    return chunked(head, [json.dumps(it, separators=(",", ":")).encode() + b"\n" for it in events])


def revision_of(target):
    """Returns the revision that a target names."""
    return int(re.search(rb"resourceVersion=(\d+)", target)[1])


def first_at(lists, frames, revision):
    """Returns a list of just the first object that was there at a revision, as the server lists it that sent this list and these frames after it."""
    value = json.loads(lists)
    there = {(it["metadata"]["namespace"], it["metadata"]["name"]): it for it in value["items"]}
    for event in (json.loads(line) for line, at in frames if at <= revision):
        meta = event["object"]["metadata"]
        if event["type"] in ("ADDED", "MODIFIED"):
            there[meta["namespace"], meta["name"]] = {name: it for name, it in event["object"].items() if name not in ("apiVersion", "kind")}
        elif event["type"] == "DELETED":
            there.pop((meta["namespace"], meta["name"]))
    body = json.dumps(value | {"metadata": {"resourceVersion": str(revision)}, "items": [there[key] for key in sorted(there)[:1]]}).encode()
    return b"HTTP/1.1 200 OK\r\nContent-Type: application/json\r\nContent-Length: %d\r\n\r\n%s" % (len(body), body)


class Player:
    """A server that answers each list with the same bytes, each stream of initial events likewise, and watches with replies in their order, each
    in pieces, or cut. Who asks whether it is still the same server, by the first object at a revision, is answered as that server would."""

    def __init__(self, listing, stream, body, frames, watches, piece):
        self.listing, self.stream, self.body, self.frames, self.watches, self.piece = listing, stream, body, frames, list(watches), piece
        self.asked = []
        self.listener = socket.create_server(("127.0.0.1", 0))
        self.port = self.listener.getsockname()[1]
        threading.Thread(target=self.run, daemon=True).start()

    def run(self):
        """Answers one connection after another, until the listener is closed or no watch is left to answer."""
        with contextlib.suppress(OSError):
            while True:
                taken, _ = self.listener.accept()
                with taken, contextlib.suppress(OSError):
                    self.answer(taken)

    def answer(self, taken):
        """Answers a request."""
        taken.setsockopt(socket.IPPROTO_TCP, socket.TCP_NODELAY, 1)
        target = taken.recv(65536).split(b" ")[1]
        self.asked.append(target.decode())
        text = self.text(target)
        for start in range(0, len(text), self.piece):
            taken.sendall(text[start : start + self.piece])

    def text(self, target):
        """Returns what a target is answered."""
        what = asked_for(target)
        if what == STREAM:
            return self.stream
        if what == WATCH:
            return self.watches.pop(0)(revision_of(target)) if self.watches else b""
        return first_at(self.body, self.frames, revision_of(target)) if what == LOOK else self.listing

    def count(self, what):
        """Returns how often something was asked for."""
        return sum(asked_for(target.encode()) == what for target in self.asked)


def follow(follower, kind, player, until):
    """Has the follower follow a player, and returns its copy, and whether it ended well."""
    words = [follower, "--server", f"127.0.0.1:{player.port}", kind, "--until", str(until)]
    try:
        ran = subprocess.run(words, capture_output=True, text=True, encoding="utf-8", timeout=LIMIT_SECONDS)
    except subprocess.TimeoutExpired:
        return {}, False
    finally:
        player.listener.close()
    lines = [line.split() for line in ran.stdout.splitlines()]
    return {words[0]: words[1] for words in lines if len(words) == 2}, ran.returncode == 0


def cases(seed):
    """Returns the cases: what each is called, its kind, list with its head and body, frames after it, watches and size of pieces, what is expected
    of it, and how often it takes in all."""
    rolls = random.Random(seed)
    for kind, name in (("ConfigMap", "configmaps"), ("Deployment", "deployments"), ("Pod", "pods")):
        listing = recorded(f"list-{name}")
        body = listing[2]
        if kind == "Pod":
            yield "a list of pods", kind, listing, [], [], 5, expected(body, []), 1
            continue
        text, head, events = recorded(f"watch-{name}")
        frames, expired, none = frames_of(events), recorded("watch-expired")[0], recorded("watch-too-new")[0]
        wanted = expected(body, frames)

        def whole(revision, text=text):
            return text

        def rest(revision, head=head, frames=frames):
            return chunked(head, [line for line, at in frames if revision < at])

        for piece in (3, 100, 1_000_000):
            yield f"{name}, in pieces of {piece}", kind, listing, frames, [whole], piece, wanted, 1
        for _ in range(CUTS):
            # Past the first frame, since a watch that gave nothing is asked for again after a pause.
            at = rolls.randrange(text.index(frames[0][0]) + len(frames[0][0]), len(text))
            yield f"{name}, cut after {at} bytes", kind, listing, frames, [lambda revision, at=at, text=text: text[:at], rest], 1000, wanted, 1
        yield f"{name}, expired", kind, listing, frames, [lambda revision, text=expired: text, whole], 50, wanted, 2
        yield f"{name}, a watch of nothing", kind, listing, frames, [lambda revision, text=none: text, whole], 50, wanted, 1


def fault(follower, refuses, case):
    """Tries a case, with streams of initial events refused with a status code or given, and returns what is wrong, if something is."""
    _, kind, (listing, head, body), frames, watches, piece, (there, until), times = case
    player = Player(listing, refusal(refuses) if refuses else initial_events(kind, head, body), body, frames, watches, piece)
    found, is_well = follow(follower, kind, player, until)
    streams, lists = player.count(STREAM), player.count(LIST)
    if is_well and found == there and (streams, lists) == (times, times if refuses else 0):
        return None
    return f"ended well {is_well}, same copy {found == there}, asked {player.asked}"


def built(path):
    """Returns the follower, built with a first run, which asks nothing, where none is given."""
    if path:
        return path
    crate = CRATES / "watch_example"
    subprocess.run(["rt", "run"], cwd=crate, stdin=subprocess.DEVNULL, stdout=sys.stderr, timeout=BUILD_SECONDS)
    return str(crate / "out" / "watch_example")


def main():
    parser = argparse.ArgumentParser(description=__doc__.splitlines()[0])
    parser.add_argument("--follower")
    parser.add_argument("--seed", type=int, default=1)
    asked = parser.parse_args()
    follower, passed, failed = built(asked.follower), 0, 0
    for way, refuses in WAYS.items():
        for case in cases(asked.seed):
            if wrong := fault(follower, refuses, case):
                failed += 1
                print(f"FAILED {case[0]}, {way}: {wrong}")
            else:
                passed += 1
    print(f"{passed} passed, {failed} failed")
    return 0 if failed == 0 else 1


if __name__ == "__main__":
    sys.exit(main())
