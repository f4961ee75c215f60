#!/usr/bin/env python3
"""Cuts what a follower takes in first after each byte in turn, and checks that it publishes the server's list each time, once and whole.

The server is a `kcp serve` with three ConfigMaps, the follower the program `watch_example`, over TCP. It is given a stream of initial events that
is cut, and asks for it again, unless the end of the list has come; or streams are refused, as by a server that knows none, and the list that it
asks for then is cut. What it writes has to be just what it writes where nothing is cut, and it asks for nothing else. Servers whose watches give
nothing new, as half a frame, have to be asked again after pauses alone (barren.py).
Usage: cuts.py --program PATH [--follower PATH] [--short]
"""
import argparse
import concurrent.futures
import contextlib
import pathlib
import socket
import subprocess
import sys
import threading

sys.dont_write_bytecode = True
import barren
from asking import LIST, STREAM, asked_for, refusal
from run import LIMIT_SECONDS, PATH, PATIENCE, Client, built, listed, serve

OBJECTS = 3
# Each that is cut pauses before it asks again.
SIDE_BY_SIDE = 32
SHORT_STEP = 16
ENDING = b'"k8s.io/initial-events-end":"true"'
REFUSALS = [400, 422]


class CuttingOnce:
    """Relays connections to a port, and cuts the first reply to what is asked for in one way after so many bytes. Where a status code is given, it
    answers streams by itself with that."""

    def __init__(self, port, what, count, refuses):
        self.upstream, self.what, self.left, self.refuses, self.asked = port, what, count, refuses, []
        self.listener = socket.create_server(("127.0.0.1", 0))
        self.port = self.listener.getsockname()[1]
        threading.Thread(target=self.accept, daemon=True).start()

    def accept(self):
        """Takes one connection after another until the listener is closed."""
        with contextlib.suppress(OSError):
            while True:
                taken, _ = self.listener.accept()
                with contextlib.suppress(OSError), taken:
                    self.relay(taken)

    def relay(self, taken):
        """Relays one request and its reply, or refuses or cuts it."""
        request = taken.recv(65536)
        what = asked_for(request)
        self.asked.append(what)
        if what == STREAM and self.refuses:
            return taken.sendall(refusal(self.refuses))
        limit, self.left = (self.left, None) if what == self.what else (None, self.left)
        with socket.create_connection(("127.0.0.1", self.upstream)) as server:
            server.sendall(request)
            return pump(server, taken, limit)

    def close(self):
        self.listener.close()


def pump(server, taken, limit):
    """Relays a reply to its end, or so many bytes of it."""
    left = limit
    while left != 0 and (got := server.recv(65536)):
        taken.sendall(got[:left])
        left = None if left is None else left - len(got[:left])


def reply(port, target, is_whole):
    """Returns the bytes of a reply, up to where it is whole."""
    came = b""
    with socket.create_connection(("127.0.0.1", port), timeout=PATIENCE) as asked:
        asked.sendall(f"GET {target} HTTP/1.1\r\nHost: 127.0.0.1\r\nAccept: application/json\r\n\r\n".encode())
        while not is_whole(came) and (got := asked.recv(65536)):
            came += got
    return came


def stream_bytes(port):
    """Returns how many bytes an initial stream takes, and after how many of them the list is known to be whole."""
    query = "watch=true&allowWatchBookmarks=true&sendInitialEvents=true&resourceVersionMatch=NotOlderThan"
    came = reply(port, f"/api/v1/configmaps?{query}", lambda came: ENDING in came and came.endswith(b"\n\r\n"))
    return len(came), len(came) - len(b"\r\n")


def list_bytes(port):
    """Returns how many bytes a list takes: it is known to be whole after all of them."""
    count = len(reply(port, "/api/v1/configmaps", lambda came: False))
    return count, count


def expected(port):
    """Returns what the follower is to write."""
    rows, revision = listed(port)
    added = [f"added {it} {version}\n" for it, version in rows.items()]
    return "".join([*added, f"published ConfigMap {revision} {len(rows)}\n", *(f"{it} {version}\n" for it, version in rows.items())]), revision


class Trials:
    """Trials of a follower at a server."""

    def __init__(self, port, follower):
        self.port, self.follower = port, follower
        self.wanted, self.until = expected(port)

    def fault(self, what, count, enough, refuses):
        """Cuts the first reply of one way after so many bytes, where so many are enough, and returns what is wrong then, if something is."""
        proxy = CuttingOnce(self.port, what, count, refuses)
        words = [self.follower, "--server", f"127.0.0.1:{proxy.port}", "ConfigMap", "--until", str(self.until)]
        try:
            ran = subprocess.run(words, capture_output=True, text=True, encoding="utf-8", timeout=LIMIT_SECONDS)
        except subprocess.TimeoutExpired:
            return f"it never published, and asked for {proxy.asked}"
        finally:
            proxy.close()
        asked = [STREAM] * bool(refuses) + [what] * (1 if count >= enough else 2)
        if (ran.returncode, ran.stdout, ran.stderr, proxy.asked) != (0, self.wanted, "", asked):
            return f"it ended with {ran.returncode}, wrote {ran.stdout!r} and {ran.stderr!r}, and asked for {proxy.asked}"
        return None

    def run(self, what, total, enough, step, refuses=None):
        """Cuts replies of one way after each so many bytes, side by side, says where it went wrong, and returns how often it did not and did."""
        counts = [*range(0, total, step), total]
        with concurrent.futures.ThreadPoolExecutor(SIDE_BY_SIDE) as pool:
            faults = list(pool.map(lambda count: self.fault(what, count, enough, refuses), counts))
        for count, fault in zip(counts, faults):
            if fault:
                print(f"FAILED {what} cut after {count} of {total} bytes: {fault}")
        wrong = sum(it is not None for it in faults)
        refused = f", as streams are refused with {refuses}" if refuses else ""
        print(f"a {what} of {total} bytes, cut {len(counts)} times{refused}: {wrong} of them wrong", flush=True)
        return len(counts) - wrong, wrong


def main():
    parser = argparse.ArgumentParser(description=__doc__.splitlines()[0])
    parser.add_argument("--program", required=True)
    parser.add_argument("--follower")
    parser.add_argument("--short", action="store_true", help=f"after each {SHORT_STEP}th byte")
    asked = parser.parse_args()
    follower, step = str(pathlib.Path(built(asked.follower)).resolve()), SHORT_STEP if asked.short else 1
    server, port = serve(asked.program)
    try:
        for number in range(OBJECTS):
            Client(port, 0, 0).ask("POST", PATH, {"metadata": {"name": f"map-{number}"}, "data": {"text": "\u00e9\n\""}})
        trials = Trials(port, follower)
        counts = [trials.run(STREAM, *stream_bytes(port), step)]
        counts += [trials.run(LIST, *list_bytes(port), step, code) for code in REFUSALS]
        counts.append(barren.run(follower))
    finally:
        server.terminate()
        server.wait(PATIENCE)
    passed, failed = (sum(it) for it in zip(*counts))
    print(f"{passed} passed, {failed} failed")
    return 0 if failed == 0 else 1


if __name__ == "__main__":
    sys.exit(main())
