#!/usr/bin/env python3
"""Has a follower keep a copy of the ConfigMaps of a `kcp serve` while clients write and a proxy between cuts its connections.

The follower is the program `watch_example`. It follows twice: once it is given streams of initial events, and once they are refused, as by a
server that knows none, so that it lists. Meanwhile clients create, replace and delete ConfigMaps, each under names of its own, and
the proxy relays in pieces of random sizes, cuts watches anywhere and what they begin with, and at times takes no connections, until what the
follower asks for is no longer known and it has to take in all again. Each write takes one revision, so that the last is known. At the end the follower's copy
is compared with the server's list, and the changes that it told with both.
Usage: run.py --program PATH [--follower PATH] [--writes N] [--cuts N] [--clients N] [--rate N] [--seed N] [--short]
"""
import argparse
import http.client
import json
import pathlib
import random
import re
import subprocess
import sys
import threading
import time

from asking import LIST, STREAM, WATCH
from proxy import Proxy

ROOT = pathlib.Path(__file__).resolve().parent.parent.parent
PATH = "/api/v1/namespaces/default/configmaps"
MERGE_PATCH = "application/merge-patch+json"
NAMES = 12
WINDOW = 128
PATIENCE = 60
# How often it is asked, while the proxy takes no connections, whether the server has written enough.
DOWN_PAUSE_SECONDS = 0.02
# How many writes are kept back for each time at which the proxy takes no connections.
DOWN_WRITES = 2 * WINDOW
# Which part of the time in which clients write the cuts take.
CUTTING = 0.6
# How long a client waits with a write where the cuts are behind, and how often it looks meanwhile.
BEHIND_SECONDS, BEHIND_PAUSE_SECONDS = 0.25, 0.005
LIMIT_SECONDS = 600
# How streams of initial events are answered: they are given, or refused with a status code.
WAYS = {"by streams": None, "by lists, as streams are refused": 422}
BUILD_SECONDS = 3600


class Pace:
    """When clients may write: so many times a second all together, but slowly where the cuts are behind, so that on a machine of any speed
    each cut falls among writes, and enough of them come while the proxy takes no connections."""

    def __init__(self, asked, downs, proxy):
        self.lock, self.proxy, self.gap, self.last, self.made = threading.Lock(), proxy, 1 / asked.rate, time.monotonic(), 0
        self.cuts, self.each = asked.cuts, (asked.writes - DOWN_WRITES * downs) / (asked.cuts + 1)

    def is_behind(self):
        """Tells whether fewer watches were cut than the writes so far ask for, but for those made while no connection was taken."""
        cuts = self.proxy.cuts
        return cuts < self.cuts and not self.proxy.is_down and self.made > self.each * (cuts + 1)

    def wait(self):
        """Waits until one more write may be made."""
        with self.lock:
            time.sleep(max(0.0, self.last + self.gap - time.monotonic()))
            ended = time.monotonic() + BEHIND_SECONDS
            while self.is_behind() and time.monotonic() < ended:
                time.sleep(BEHIND_PAUSE_SECONDS)
            self.last, self.made = time.monotonic(), self.made + (not self.proxy.is_down)


class Client:
    """A client that writes under names of its own."""

    def __init__(self, port, number, seed):
        self.port, self.number, self.rolls, self.known, self.refused = port, number, random.Random(seed), {}, 0

    def ask(self, method, path, body=None):
        """Asks over a connection of its own, and returns the status and what was answered."""
        connection = http.client.HTTPConnection("127.0.0.1", self.port, timeout=PATIENCE)
        media_type = MERGE_PATCH if method == "PATCH" else "application/json"
        connection.request(method, path, None if body is None else json.dumps(body), {"Content-Type": media_type} if body else {})
        reply = connection.getresponse()
        value = json.loads(reply.read())
        connection.close()
        return reply.status, value

    def write(self, count):
        """Makes a write that has to be accepted."""
        name = f"map-{self.number}-{self.rolls.randrange(NAMES)}"
        if name not in self.known:
            status, value = self.ask("POST", PATH, {"metadata": {"name": name}, "data": {"count": str(count)}})
        elif self.rolls.random() < 0.7:
            text = "\u00e9\n\"" * self.rolls.randrange(40)
            status, value = self.ask("PUT", f"{PATH}/{name}", self.known[name] | {"data": {"count": str(count), "text": text}})
        else:
            status, value = self.ask("DELETE", f"{PATH}/{name}")
            self.known.pop(name)
            value = None
        self.refused += status not in (200, 201)
        if value is not None:
            self.known[name] = value

    def run(self, writes, pace):
        """Makes so many writes, each when it may be made."""
        for count in range(writes):
            pace.wait()
            self.write(count)


def built(path):
    """Returns the follower, built with a first run, which asks nothing, where none is given."""
    if path:
        return path
    crate = ROOT / "crates" / "watch_example"
    subprocess.run(["rt", "run"], cwd=crate, stdin=subprocess.DEVNULL, stdout=sys.stderr, timeout=BUILD_SECONDS)
    return str(crate / "out" / "watch_example")


def serve(program):
    """Starts a server, and returns it with its port."""
    words = [program, "serve", "--port", "0", "--window", str(WINDOW), "--threads", "16"]
    started = subprocess.Popen(words, stdout=subprocess.PIPE)
    return started, int(re.fullmatch(rb"listening 127\.0\.0\.1:(\d+)\n", started.stdout.readline())[1])


def keep_down(proxy, port):
    """Has the proxy take no connections until the server no longer knows what the follower asks for."""
    proxy.go_down()
    until, ended = listed(port)[1] + WINDOW, time.monotonic() + PATIENCE
    while listed(port)[1] <= until and time.monotonic() < ended:
        time.sleep(DOWN_PAUSE_SECONDS)
    proxy.come_up()


def trouble(proxy, port, seconds, cuts, downs, seed):
    """Cuts so many watches within about so many seconds, and after some of the cuts takes no connections for a while."""
    rolls, ended = random.Random(seed), time.monotonic() + LIMIT_SECONDS / 2
    while proxy.cuts < cuts and time.monotonic() < ended:
        time.sleep(rolls.uniform(0.5, 1.5) * seconds / cuts)
        if proxy.cut() and proxy.cuts in downs:
            keep_down(proxy, port)


def replayed(lines):
    """Returns the map that the told changes make, the last map that was printed, the published revisions, and what does not fit."""
    made, printed, revisions, wrong = {}, {}, [], []
    for line in lines:
        words = line.split()
        if words[0] in ("added", "modified", "deleted"):
            if (words[0] == "added") == (words[1] in made):
                wrong.append(line)
            made[words[1]] = words[2]
            if words[0] == "deleted":
                made.pop(words[1])
        elif words[0] == "published":
            revisions.append(int(words[2]))
            if len(made) != int(words[3]) or revisions[-1] < max(revisions):
                wrong.append(line)
        else:
            printed[words[0]] = words[1]
    return made, printed, revisions, wrong


def listed(port):
    """Returns the server's list as the follower prints it, and its revision."""
    _, value = Client(port, 0, 0).ask("GET", PATH)
    rows = {f"{it['metadata']['namespace']}/{it['metadata']['name']}": it["metadata"]["resourceVersion"] for it in value["items"]}
    return rows, int(value["metadata"]["resourceVersion"])


def follow(asked, port, follower, refuses):
    """Has the follower follow while clients write, and returns its lines, its status, the clients and the proxy."""
    proxy, until = Proxy(port, asked.seed, 0 if asked.short else 1, refuses), listed(port)[1] + asked.writes
    words = [follower, "--server", f"127.0.0.1:{proxy.port}", "ConfigMap", "--until", str(until)]
    started = subprocess.Popen(words, stdout=subprocess.PIPE, text=True, encoding="utf-8")
    lines, each = [], asked.writes // asked.clients
    reader = threading.Thread(target=lambda: lines.extend(line.rstrip("\n") for line in started.stdout), daemon=True)
    clients = [Client(port, number, asked.seed + number) for number in range(asked.clients)]
    shares = [each + (number < asked.writes % asked.clients) for number in range(asked.clients)]
    downs = {asked.cuts} if asked.short else {asked.cuts // 2, asked.cuts}
    pace = Pace(asked, len(downs), proxy)
    threads = [threading.Thread(target=it.run, args=(share, pace), daemon=True) for it, share in zip(clients, shares)]
    cutting = (proxy, port, CUTTING * asked.writes / asked.rate, asked.cuts, downs, asked.seed)
    threads.append(threading.Thread(target=trouble, args=cutting, daemon=True))
    for thread in [reader, *threads]:
        thread.start()
    for thread in threads:
        thread.join(LIMIT_SECONDS)
    try:
        status = started.wait(LIMIT_SECONDS)
    except subprocess.TimeoutExpired:
        started.kill()
        status = None
    reader.join(PATIENCE)
    proxy.close()
    return lines, status, clients, proxy


def took_in_again(proxy):
    """Returns whether what the follower asked for was no longer known, and it took in all again: by a stream, or by a list where one was refused
    right before."""
    streams, lists = proxy.asked[STREAM], proxy.asked[LIST]
    again = 1 < streams <= lists if proxy.refusal_code else 1 < streams and lists == 0
    return proxy.expiries > 0 and again


def passes(way, asked, follower, refuses):
    """Has the follower follow one way, says what came of it, and returns what was checked, and whether it holds."""
    began = time.monotonic()
    server, port = serve(asked.program)
    try:
        lines, status, clients, proxy = follow(asked, port, follower, refuses)
        rows, revision = listed(port)
    finally:
        server.terminate()
        server.wait(PATIENCE)
    made, printed, revisions, wrong = replayed(lines)
    checks = {
        "each write was accepted": sum(it.refused for it in clients) == 0,
        "the follower ended by itself": status == 0,
        "it published the last revision": revisions[-1:] == [revision],
        "its copy is the server's list": printed == rows,
        "the changes that it told make that list": made == rows,
        "each change fits what was there, and no revision falls": not wrong,
        "watches were cut": proxy.cuts >= asked.cuts,
        "what it asked for was no longer known, and it took in all again": took_in_again(proxy),
    }
    for what in (what for what, holds in checks.items() if not holds):
        print(f"FAILED {way}: {what}")
    for line in wrong[:10]:
        print(f"  {line}")
    counts = ", ".join(f"{proxy.asked[what]} {plural}" for what, plural in ((STREAM, "streams"), (LIST, "lists"), (WATCH, "watches")))
    print(
        f"{way}: {asked.writes} writes, {proxy.cuts} cuts, {counts}, {proxy.expiries} expiries, {len(revisions)} publishes, {len(rows)} objects,"
        f" {time.monotonic() - began:.1f} s"
    )
    return list(checks.values())


def main():
    parser = argparse.ArgumentParser(description=__doc__.splitlines()[0])
    parser.add_argument("--program", required=True)
    parser.add_argument("--follower")
    parser.add_argument("--short", action="store_true", help="1,500 writes and 12 cuts each way, in about 10 seconds")
    for name, default in (("writes", 10_000), ("cuts", 100), ("clients", 8), ("rate", 400), ("seed", 1)):
        parser.add_argument(f"--{name}", type=int, default=default)
    asked = parser.parse_args()
    if asked.short:
        asked.writes, asked.cuts = 1_500, 12
    follower = built(asked.follower)
    checks = [it for way, refuses in WAYS.items() for it in passes(way, asked, follower, refuses)]
    print(f"{sum(checks)} passed, {len(checks) - sum(checks)} failed")
    return 0 if all(checks) else 1


if __name__ == "__main__":
    sys.exit(main())
