#!/usr/bin/env python3
"""Measures `kcp serve` over loopback, a connection a request, beside the least that such a server has to do.

For each kind of request (a create of a ConfigMap with 100 bytes of data, a get of one among 10,000, a list of 1,000) and each number of
clients two servers answer in turn: `kcp serve`, and a C program of a few lines (http/limit.c) that accepts, reads a head and the
body that it announces, writes a fixed reply of the same length and closes: what the loopback allows. The clients are threads of
another C program (http/load.c). The last figure is the resident memory of `kcp serve` with 10,000 ConfigMaps.

With `--watchers` it measures watches instead: how long an event takes from the reply of its create to the watchers, one, 50 and so many
(http/watch.c, which reads them all on one thread), and how much of a processor `kcp serve` uses while so many watch and nothing happens.

With `--objects` it measures how so many ConfigMaps are taken in by one stream of initial events, and by pages of 500: how long it takes, after
how long the first byte comes, and how much memory `kcp serve` takes for it beside what it has before.

Usage: http.py --program PATH [--threads N] [--clients N,N] [--seconds S]
       http.py --program PATH --watchers N [--events N] [--seconds S]
       http.py --program PATH --objects N [--runs N]
  --program PATH   the executable of kcp
  --threads N      threads of both servers, and of the one that is watched, 1 if left out
  --clients N,N    numbers of clients, 1,16 if left out
  --seconds S      how long each run takes, 3 if left out
  --watchers N     how many watch
  --events N       how many objects are created while they watch, 500 if left out
  --objects N      how many are taken in
  --runs N         how often, either way in turn, 5 if left out
It uses loopback alone, and writes only to a temporary folder.
"""
import argparse
import concurrent.futures
import json
import os
import pathlib
import re
import resource
import socket
import subprocess
import sys
import tempfile
import time

# This file has the name of the library that it uses, so its folder is not looked into for it.
sys.path = [it for it in sys.path if pathlib.Path(it or ".").resolve() != pathlib.Path(__file__).resolve().parent]
import http.client

HERE = pathlib.Path(__file__).resolve().parent / "http"
MAPS = "/api/v1/namespaces/default/configmaps"
# How many microseconds lie between two events.
PAUSE = 20_000
# How many clients fill a server side by side.
FILLERS = 8
DATA = {"data": {"text": "x" * 100}}
STREAM = f"{MAPS}?watch=true&allowWatchBookmarks=true&sendInitialEvents=true&resourceVersionMatch=NotOlderThan"
ENDING = b'"k8s.io/initial-events-end":"true"'
PAGE = 500
CONTINUE = re.compile(rb'"continue":"([^"]*)"')
# In how many bytes at its end a reply says that more follows, or that a list is whole, and how many are read at once.
LAST, PIECE = 1_024, 1 << 20


def compiled(folder, name):
    """Compiles a C program, and returns its path."""
    path = pathlib.Path(folder) / name
    subprocess.run(["cc", "-O2", "-D_GNU_SOURCE", "-pthread", "-o", path, HERE / f"{name}.c"], check=True)
    return path


class Server:
    """A program that says where it listens."""

    def __init__(self, words):
        self.program = subprocess.Popen(words, stdout=subprocess.PIPE)
        self.port = int(re.fullmatch(rb"listening 127\.0\.0\.1:(\d+)\n", self.program.stdout.readline())[1])

    def __enter__(self):
        return self

    def __exit__(self, *_):
        self.program.kill()
        self.program.wait()

    def ask(self, method, path, body=None):
        """Returns the body of a reply that has to be 2xx."""
        asked = http.client.HTTPConnection("127.0.0.1", self.port)
        asked.request(method, path, json.dumps(body) if body else None, {"Content-Type": "application/json"} if body else {})
        reply = asked.getresponse()
        text = reply.read()
        if reply.status // 100 != 2:
            sys.exit(f"{method} {path}: {reply.status} {text[:200]!r}")
        return text

    def processor_seconds(self):
        """Returns how long the program has run on processors, in all."""
        fields = pathlib.Path(f"/proc/{self.program.pid}/stat").read_text().rsplit(") ", 1)[1].split()
        return (int(fields[11]) + int(fields[12])) / os.sysconf("SC_CLK_TCK")

    def memory(self, kind="VmRSS"):
        """Returns the resident memory in MB, or the peak of it (`VmHWM`)."""
        status = pathlib.Path(f"/proc/{self.program.pid}/status").read_text()
        return int(re.search(rf"{kind}:\s+(\d+) kB", status)[1]) / 1000

    def forget_peak(self):
        """Has the system measure the peak of the memory from now on."""
        pathlib.Path(f"/proc/{self.program.pid}/clear_refs").write_text("5")


def request(method, path, body=""):
    """Returns the bytes of a request."""
    length = f"Content-Length: {len(body)}\r\nContent-Type: application/json\r\n" if body else ""
    return f"{method} {path} HTTP/1.1\r\nHost: 127.0.0.1\r\n{length}\r\n{body}".encode()


def rate(load, port, clients, seconds, text, folder):
    """Returns replies a second."""
    path = pathlib.Path(folder) / "request"
    path.write_bytes(text)
    words = [load, str(port), str(clients), str(seconds), path]
    good, bad, took = subprocess.run(words, capture_output=True, check=True, text=True).stdout.split()
    if int(bad):
        sys.exit(f"{bad} of the replies did not come whole: {text[:60]!r}")
    return int(good) / float(took)


def filled(program, threads, count):
    """Starts `kcp serve` with so many ConfigMaps."""
    server = Server([program, "serve", "--port", "0", "--threads", str(threads)])
    with concurrent.futures.ThreadPoolExecutor(FILLERS) as pool:
        list(pool.map(lambda number: server.ask("POST", MAPS, {"metadata": {"name": f"map-{number:05}"}, **DATA}), range(count)))
    return server


def delays(watch, server, watchers, events, folder):
    """Returns the microseconds from the reply of a create to its frames: the median of all, the median of the last, the greatest."""
    paths = [pathlib.Path(folder) / name for name in ("asked-watch", "asked-create")]
    paths[0].write_bytes(request("GET", f"{MAPS}?watch=true&resourceVersion=1"))
    paths[1].write_bytes(request("POST", MAPS, json.dumps({"metadata": {"name": "new-#######"}, **DATA})))
    words = [watch, str(server.port), str(watchers), str(events), str(PAUSE), *paths]
    return [int(it) for it in subprocess.run(words, capture_output=True, check=True, text=True).stdout.split()]


def idle_share(server, watchers, seconds):
    """Returns how much of a processor the server uses while so many watch and nothing happens, and its resident memory then."""
    watching = [socket.create_connection(("127.0.0.1", server.port)) for _ in range(watchers)]
    for it in watching:
        it.sendall(request("GET", f"{MAPS}?watch=true&resourceVersion=1"))
        it.recv(4096)
    time.sleep(1)
    before = server.processor_seconds()
    time.sleep(seconds)
    return (server.processor_seconds() - before) / seconds, server.memory()


def measure_watches(asked):
    """Prints how long events take to watchers, and what idle watches cost."""
    words = [asked.program, "serve", "--port", "0", "--threads", str(asked.threads)]
    _, most = resource.getrlimit(resource.RLIMIT_NOFILE)
    resource.setrlimit(resource.RLIMIT_NOFILE, (most, most))
    print("| Watchers | median, microseconds | median of the last watcher | greatest |")
    print("|---|---|---|---|")
    with tempfile.TemporaryDirectory() as folder:
        watch = compiled(folder, "watch")
        for watchers in sorted({1, 50, asked.watchers}):
            with Server(words) as server:
                print(f"| {watchers} | {' | '.join(f'{it:,}' for it in delays(watch, server, watchers, asked.events, folder))} |", flush=True)
    with Server(words) as server:
        share, memory = idle_share(server, asked.watchers, asked.seconds)
        print(f"\n{asked.watchers} idle watches: {share:.1%} of a processor, {memory:.1f} MB")


class Taken:
    """What was taken in: the bytes of the replies, after how many seconds the first byte of a body came, and all had."""

    def __init__(self, server):
        self.port, self.pieces, self.began, self.first, self.took = server.port, [], time.monotonic(), None, None

    def ask(self, target, is_whole):
        """Takes in a reply up to its end, or to where its last bytes say that it is whole."""
        last = b""
        with socket.create_connection(("127.0.0.1", self.port)) as asked:
            asked.sendall(request("GET", target))
            while not is_whole(last) and (got := asked.recv(PIECE)):
                self.pieces.append(got)
                last = (last + got)[-LAST:]
                if self.first is None and not got.endswith(b"\r\n\r\n"):
                    self.first = time.monotonic() - self.began
        self.took = time.monotonic() - self.began
        return last

    def by_stream(self):
        """Takes in all by one stream of initial events."""
        self.ask(STREAM, lambda last: ENDING in last and last.endswith(b"\n\r\n"))

    def by_pages(self):
        """Takes in all by pages."""
        token = b""
        while token is not None:
            last = self.ask(f"{MAPS}?limit={PAGE}" + (f"&continue={token.decode()}" if token else ""), lambda last: False)
            found = CONTINUE.search(last)
            token = found[1] if found else None

    def check(self, objects):
        """Ends the program where it is not so many objects."""
        count = b"".join(self.pieces).count(b'"name":"map-')
        if count != objects:
            sys.exit(f"{count} objects were taken in, not {objects}")


def taken_in(server, objects, take):
    """Takes in all objects one way, and returns how many MB came, how many seconds it took, after how many milliseconds the first byte came, and how
    many MB of memory the server took for it."""
    server.forget_peak()
    before, taken = server.memory(), Taken(server)
    take(taken)
    more = server.memory("VmHWM") - before
    taken.check(objects)
    return sum(map(len, taken.pieces)) / 1e6, taken.took, taken.first * 1e3, more


def measure_streams(asked):
    """Prints how long it takes to take in all objects by one stream and by pages, and what memory it takes."""
    ways = {"one stream": Taken.by_stream, f"pages of {PAGE}": Taken.by_pages}
    found = {way: [] for way in ways}
    with filled(asked.program, asked.threads, asked.objects) as server:
        memory = server.memory()
        for _ in range(asked.runs):
            for way, take in ways.items():
                found[way].append(taken_in(server, asked.objects, take))
    print(f"{asked.objects:,} ConfigMaps, for which the server has {memory:.1f} MB; best of {asked.runs} runs, and the most memory:\n")
    print("| Taken in by | MB | seconds | first byte, milliseconds | memory beside the store, MB |")
    print("|---|---|---|---|---|")
    for way, runs in found.items():
        sizes, took, first, more = zip(*runs)
        print(f"| {way} | {sizes[0]:.1f} | {min(took):.3f} | {min(first):.1f} | {max(more):.1f} |")


def main():
    parser = argparse.ArgumentParser(description=__doc__.splitlines()[0])
    parser.add_argument("--program", required=True)
    parser.add_argument("--threads", type=int, default=1)
    parser.add_argument("--clients", default="1,16")
    parser.add_argument("--seconds", type=float, default=3)
    parser.add_argument("--watchers", type=int)
    parser.add_argument("--events", type=int, default=500)
    parser.add_argument("--objects", type=int)
    parser.add_argument("--runs", type=int, default=5)
    asked = parser.parse_args()
    if asked.watchers:
        return measure_watches(asked)
    if asked.objects:
        return measure_streams(asked)
    create = json.dumps({"metadata": {"name": "new-#######"}, **DATA})
    kinds = {
        "create": (0, request("POST", MAPS, create), MAPS + "/new-0000000"),
        "get": (10_000, request("GET", f"{MAPS}/map-05000"), f"{MAPS}/map-05000"),
        "list of 1,000": (1_000, request("GET", MAPS), MAPS),
    }
    print("| Request | Clients | `kcp serve`, a second | microseconds each | the limit, a second | of the limit |")
    print("|---|---|---|---|---|---|")
    memory = None
    with tempfile.TemporaryDirectory() as folder:
        load, limit = compiled(folder, "load"), compiled(folder, "limit")
        for kind, (count, text, like) in kinds.items():
            for clients in map(int, asked.clients.split(",")):
                with filled(asked.program, asked.threads, count) as server:
                    seconds = min(asked.seconds, 1.5) if kind == "create" else asked.seconds
                    ours = rate(load, server.port, clients, seconds, text, folder)
                    length = len(server.ask("GET", like))
                    memory = server.memory() if count == 10_000 else memory
                with Server([limit, "0", str(length), str(asked.threads)]) as least:
                    theirs = rate(load, least.port, clients, asked.seconds, text, folder)
                print(f"| {kind} | {clients} | {ours:,.0f} | {1e6 / ours:,.0f} | {theirs:,.0f} | {ours / theirs:.0%} |", flush=True)
    print(f"\nResident memory with 10,000 ConfigMaps: {memory:.1f} MB")


if __name__ == "__main__":
    main()
