#!/usr/bin/env python3
"""Gives the program random bytes wherever it reads any: nothing stops it, and each refusal is a named one.

So many bytes each as request heads, as request bodies, as the lines of `kcp replay` and of `kcp simulate`, and, of a server that `kcp control`
asks, as whole replies, as bodies of lists, as bodies in chunks and as frames of watches. They are random in one of three ways: any bytes,
bytes of a small alphabet in which such texts are written, or a right text with some of its bytes changed. After each, a right request gets its
right answer; the programs write nothing but what they write of such input, and end well.
Usage: run.py --program PATH [--bytes N] [--seed N] [WORD]      WORD: only kinds of input whose name has it
"""
import argparse
import json
import math
import pathlib
import random
import re
import socket
import subprocess
import sys
import threading
import time

sys.dont_write_bytecode = True
HERE = pathlib.Path(__file__).resolve().parent
sys.path.insert(0, str(HERE.parent / "controllers"))
from programs import Listener, Program
from waiting import Limit, Wrong, check

MAPS = "/api/v1/namespaces/default/configmaps"
ALPHABET = b'{}[]",:\\/ abcdefGETPOSThttp0123456789.-_?&=%\r\n\t\x00\xc3\xa9\xff'
LONGEST_HEAD, LONGEST_BODY = 20_000, 60_000
HEAD = b"POST " + MAPS.encode() + b" HTTP/1.1\r\nHost: localhost\r\nContent-Type: application/json\r\nContent-Length: 26\r\n\r\n" + b'{"metadata":{"name":"abc"}}'
BODY = b'{"apiVersion":"v1","data":{"k":"v"},"kind":"ConfigMap","metadata":{"labels":{"a":"b"},"name":"abc"}}'
LINES = (
    b"POST " + MAPS.encode() + b' {"metadata":{"name":"abc"}}\nGET ' + MAPS.encode() + b"?limit=1\nGET " + MAPS.encode() + b"?watch=1&resourceVersion=1\n"
    b"AT 2026-02-01T00:00:00Z\nCOMPACT 1\nDELETE " + MAPS.encode() + b'/abc {"propagationPolicy":"Orphan"}\n'
)
STEPS = (
    b"request POST " + MAPS.encode() + b' {"metadata":{"name":"abc"}}\nlist configmaps\npublish configmaps\nwatch configmaps\nsend configmaps 3\nstream pods\n'
    b"deliver configmaps 17\ncut configmaps\nhandle pods\ntake 0\nlook 0 pods\nsatisfied 0\nissue 0 lost\nfinish 0\ntick 1000\nrestart\n"
)
OBJECT = b'{"metadata":{"creationTimestamp":"2026-01-01T00:00:00Z","name":"a","namespace":"default","resourceVersion":"2","uid":"00000000-0000-8000-8000-000000000002"}}'
LIST = b'{"apiVersion":"v1","items":[' + OBJECT + b'],"kind":"%sList","metadata":{"resourceVersion":"2"}}'
FRAME = b'{"object":' + OBJECT.replace(b'"metadata"', b'"apiVersion":"v1","kind":"Pod","metadata"', 1) + b',"type":"ADDED"}\n'
REPLY = b"HTTP/1.1 200 OK\r\nContent-Type: application/json\r\nContent-Length: 2\r\n\r\n{}"
CHUNKS = b"1a;x=y\r\n" + b"a" * 26 + b"\r\n0\r\nA: b\r\n\r\n"
KIND_OF = {"configmaps": b"ConfigMap", "pods": b"Pod", "replicasets": b"ReplicaSet", "deployments": b"Deployment"}
TARGET = re.compile(rb"GET \S*/(configmaps|pods|replicasets|deployments)(\?\S*)? HTTP/1\.1\r\n")


def random_bytes(rolls, right, longest, least=1):
    """Returns random bytes, so many at least and at most and most often few, in one of three ways."""
    way, count = rolls.randrange(3), int(2 ** rolls.uniform(math.log2(least), math.log2(longest)))
    if way == 0:
        return rolls.randbytes(count)
    if way == 1:
        return bytes(rolls.choices(ALPHABET, k=count))
    changed = bytearray(right * max(1, count // len(right)))
    for _ in range(rolls.randint(1, 1 + len(changed) // 50)):
        changed[rolls.randrange(len(changed))] = rolls.choice(ALPHABET) if rolls.random() < 0.7 else rolls.randrange(256)
    return bytes(changed)


def pieces(rolls, right, longest, count):
    """Yields random bytes until so many have been."""
    given = 0
    while given < count:
        some = random_bytes(rolls, right, min(longest, count - given))
        given += len(some)
        yield some


# ---- a server that is asked


def exchanged(port, text):
    """Returns what a server answers to bytes, to the end; it may close before it has read them all."""
    with socket.create_connection(("127.0.0.1", port), timeout=Limit.seconds) as connection:
        try:
            connection.sendall(text)
            connection.shutdown(socket.SHUT_WR)
        except (BrokenPipeError, ConnectionResetError):
            pass
        answered = b""
        try:
            while some := connection.recv(65536):
                answered += some
        except ConnectionResetError:
            pass
        return answered


def check_answer(answered, given):
    """Checks that an answer is none, a success, or a named refusal."""
    if not answered:
        return
    head, _, body = answered.partition(b"\r\n\r\n")
    found = re.match(rb"HTTP/1\.1 (\d{3}) ", head)
    check(found, f"{given[:200]!r} was answered {answered[:200]!r}")
    code = int(found[1])
    if code in (200, 201, 202):
        return
    value = json.loads(body)
    named = value.get("kind") == "Status" and value.get("code") == code and value.get("message") and value.get("reason")
    check(named, f"{given[:200]!r} was answered {answered[:300]!r}")


def check_serves(server):
    """Checks that the server still answers a right request."""
    server.check_running()
    answered = exchanged(server.port, b"GET " + MAPS.encode() + b"?limit=1 HTTP/1.1\r\nHost: localhost\r\n\r\n")
    check(answered.startswith(b"HTTP/1.1 200 OK\r\n"), f"a list was answered {answered[:200]!r}")


def heads(program, rolls, count):
    server = Listener([program, "serve", "--port", "0"])
    try:
        for some in pieces(rolls, HEAD, LONGEST_HEAD, count):
            check_answer(exchanged(server.port, some), some)
        check_serves(server)
    finally:
        server.kill()


def bodies(program, rolls, count):
    server = Listener([program, "serve", "--port", "0"])
    try:
        for some in pieces(rolls, BODY, LONGEST_BODY, count):
            method, target = rolls.choice([(b"POST", MAPS), (b"PUT", MAPS + "/abc"), (b"PATCH", MAPS + "/abc"), (b"DELETE", MAPS + "/abc")])
            media = b"application/merge-patch+json" if method == b"PATCH" else b"application/json"
            head = b"%s %s HTTP/1.1\r\nHost: localhost\r\nContent-Type: %s\r\nContent-Length: %d\r\n\r\n" % (method, target.encode(), media, len(some))
            check_answer(exchanged(server.port, head + some), some)
        check_serves(server)
    finally:
        server.kill()


# ---- lines


def run_lines(program, command, given, is_right):
    """Checks that a run over lines ends well, and that each line that it writes is one that it may write."""
    ran = subprocess.run([program, command], input=given, capture_output=True, timeout=Limit.seconds)
    check(ran.returncode == 0 and not ran.stderr, f"kcp {command} ended with {ran.returncode} and said {ran.stderr[:300]!r}")
    for line in ran.stdout.splitlines():
        check(is_right(line), f"kcp {command} wrote {line[:300]!r}")


def is_reply(line):
    """Returns whether a line is a reply line, or a frame of a watch."""
    found = re.match(rb"(\d{3}) (watch \d+$)?", line)
    if found and found[2]:
        return True
    text = line[found.end() :] if found else line
    value = json.loads(text)
    return isinstance(value, dict) and (not found or int(found[1]) < 400 or value.get("kind") == "Status" and bool(value.get("message")))


def is_outcome(line):
    """Returns whether a line tells what came of a step of a simulation."""
    return re.match(rb"[a-z ]+\b", line) is not None and line[:1].isalpha() or is_reply(line)


def replayed(program, rolls, count):
    run_lines(program, "replay", b"\n".join(pieces(rolls, LINES, LONGEST_BODY, count)) + b"\n", is_reply)


def simulated(program, rolls, count):
    run_lines(program, "simulate", b"\n".join(pieces(rolls, STEPS, LONGEST_BODY, count)) + b"\n", is_outcome)


# ---- a server that answers


class Hostile:
    """A server on the loopback address that answers what it is told to make of each request, until it has given so many bytes."""

    def __init__(self, rolls, count, answer):
        self.rolls, self.left, self.answer, self.is_done = rolls, count, answer, threading.Event()
        # A client pauses longer and longer, so the answers are long where many bytes are to be given.
        self.longest = max(LONGEST_HEAD, count // 10)
        self.listener = socket.create_server(("127.0.0.1", 0))
        self.port = self.listener.getsockname()[1]
        threading.Thread(target=self.serve, daemon=True).start()

    def serve(self):
        while not self.is_done.is_set():
            try:
                connection, _ = self.listener.accept()
            except OSError:
                return
            with connection:
                try:
                    self.give(connection)
                except OSError:
                    pass

    def give(self, connection):
        """Reads the head of a request, and answers it."""
        head = b""
        while b"\r\n\r\n" not in head:
            some = connection.recv(65536)
            if not some:
                return
            head += some
        found = TARGET.match(head)
        answered, counted = self.answer(self.rolls, found and found[1].decode(), found and b"watch" in (found[2] or b""), self.longest)
        connection.sendall(answered)
        self.left -= counted
        if self.left <= 0:
            self.is_done.set()

    def close(self):
        self.is_done.set()
        self.listener.close()


def whole(body):
    """Returns a reply with a body of a stated length."""
    return b"HTTP/1.1 200 OK\r\nContent-Type: application/json\r\nContent-Length: %d\r\n\r\n%s" % (len(body), body)


def in_chunks(text):
    """Returns a reply whose body is said to come in chunks."""
    return b"HTTP/1.1 200 OK\r\nContent-Type: application/json\r\nTransfer-Encoding: chunked\r\n\r\n" + text


def chunk(text):
    return b"%x\r\n%s\r\n" % (len(text), text)


def reply_answer(rolls, kind, is_watch, longest):
    some = random_bytes(rolls, REPLY, longest, longest // 2)
    return some, len(some)


def list_answer(rolls, kind, is_watch, longest):
    some = random_bytes(rolls, LIST % KIND_OF.get(kind, b"Pod"), longest, longest // 2)
    return whole(some), len(some)


def chunk_answer(rolls, kind, is_watch, longest):
    some = random_bytes(rolls, CHUNKS, longest, longest // 2)
    return in_chunks(some), len(some)


def frame_answer(rolls, kind, is_watch, longest):
    if not is_watch:
        return whole(LIST % KIND_OF.get(kind, b"Pod")), 0
    some = random_bytes(rolls, FRAME, longest, longest // 2)
    return in_chunks(b"".join(chunk(some[at : at + 777]) for at in range(0, len(some), 777))), len(some)


def controlled(program, rolls, count, answer):
    """Has `kcp control` ask a server that answers so, and then looks whether it still runs."""
    server = Hostile(rolls, count, answer)
    control = Program([program, "control", "--server", f"127.0.0.1:{server.port}", "--workers", "1"])
    try:
        until = time.monotonic() + 20 * Limit.seconds
        while not server.is_done.wait(0.1):
            control.check_running()
            check(time.monotonic() < until, f"kcp control took {count - server.left} bytes of {count}")
        control.check_running()
    finally:
        server.close()
        control.kill()
    while line := control.errors.next():
        check(line.startswith(b"kcp: the server at 127.0.0.1:"), f"kcp control said {line[:300]!r}")


def asked(answer):
    return lambda program, rolls, count: controlled(program, rolls, count, answer)


KINDS = {
    "heads": heads,
    "bodies": bodies,
    "replay-lines": replayed,
    "simulate-lines": simulated,
    "replies": asked(reply_answer),
    "bodies-of-lists": asked(list_answer),
    "bodies-in-chunks": asked(chunk_answer),
    "frames": asked(frame_answer),
}


def main():
    parser = argparse.ArgumentParser(description=__doc__.splitlines()[0])
    parser.add_argument("--program", required=True)
    parser.add_argument("--bytes", type=int, default=100_000)
    parser.add_argument("--seed", type=int, default=None)
    parser.add_argument("--limit", type=float, default=60)
    parser.add_argument("word", nargs="?", default="")
    options = parser.parse_args()
    Limit.seconds = options.limit
    seed = random.randrange(2**32) if options.seed is None else options.seed
    failed = 0
    for name, run in KINDS.items():
        if options.word not in name:
            continue
        began = time.monotonic()
        try:
            run(options.program, random.Random(f"{seed} {name}"), options.bytes)
            print(f"{name}: right, {options.bytes} bytes by seed {seed}, {time.monotonic() - began:.1f} s", flush=True)
        except Exception as wrong:
            failed += 1
            print(f"{name}: seed {seed}: WRONG: {wrong}", flush=True)
    print(f"{len([name for name in KINDS if options.word in name]) - failed} passed, {failed} failed")
    sys.exit(1 if failed else 0)


if __name__ == "__main__":
    main()
