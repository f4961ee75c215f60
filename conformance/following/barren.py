"""A server whose watches give nothing new, and how often a follower asks it within some seconds."""
import collections
import concurrent.futures
import contextlib
import json
import socket
import subprocess
import threading
import time

from asking import STREAM, WATCH, asked_for, refusal

PIECE = 65_536
PATIENCE = 60
REFUSAL = 422
SECONDS = 4.0
# The follower pauses 0.8 s, then 1.6 s, then 3.2 s: it asks for three watches in this time, and before each for a list or a look at the first object.
FEWEST_WATCHES, MOST_ASKED = 2, 20
REVISION = "5"
ITEM = {"metadata": {"name": "a", "namespace": "b", "uid": "c", "resourceVersion": "4"}}
LISTED = {"kind": "ConfigMapList", "apiVersion": "v1", "metadata": {"resourceVersion": REVISION}, "items": [ITEM]}
BOOKMARK = {"type": "BOOKMARK", "object": {"kind": "ConfigMap", "apiVersion": "v1", "metadata": {"resourceVersion": REVISION}}}
HEAD = "HTTP/1.1 200 OK\r\nContent-Type: application/json\r\nConnection: close\r\n"


def compact(value):
    """Returns a value as a server writes it."""
    return json.dumps(value, separators=(",", ":")) + "\n"


# What each watch gives, and what follows: the last chunk, or nothing.
GIVEN = {"half a frame": compact(BOOKMARK)[:40], "an empty line": "\n", "a bookmark that repeats the revision": compact(BOOKMARK)}
ENDINGS = {"ends": "0\r\n\r\n", "is cut": ""}


class BarrenServer:
    """Refuses streams of initial events, answers each list and each look at the first object by one list, and each watch by a few bytes that give
    nothing new. It counts what it is asked for."""

    def __init__(self, given, ending):
        self.watch = f"{HEAD}Transfer-Encoding: chunked\r\n\r\n{len(given):x}\r\n{given}\r\n{ending}".encode()
        self.listed = f"{HEAD}Content-Length: {len(compact(LISTED))}\r\n\r\n{compact(LISTED)}".encode()
        self.asked = collections.Counter()
        self.listener = socket.create_server(("127.0.0.1", 0))
        self.port = self.listener.getsockname()[1]
        threading.Thread(target=self.accept, daemon=True).start()

    def accept(self):
        """Answers one connection after another until the listener is closed."""
        with contextlib.suppress(OSError):
            while True:
                taken, _ = self.listener.accept()
                with contextlib.suppress(OSError), taken:
                    taken.sendall(self.answer(asked_for(taken.recv(PIECE))))

    def answer(self, what):
        """Returns the reply to what is asked for, and counts it."""
        self.asked[what] += 1
        if what == STREAM:
            return refusal(REFUSAL)
        return self.watch if what == WATCH else self.listed

    def close(self):
        self.listener.close()


def fault(follower, given, ending):
    """Has a follower follow such a server for some seconds, and returns what is wrong then, if something is."""
    server = BarrenServer(given, ending)
    words = [follower, "--server", f"127.0.0.1:{server.port}", "ConfigMap"]
    with subprocess.Popen(words, stdout=subprocess.DEVNULL) as started:
        time.sleep(SECONDS)
        status = started.poll()
        started.kill()
        started.wait(PATIENCE)
    server.close()
    if status is not None:
        return f"it ended with {status}"
    if server.asked[WATCH] < FEWEST_WATCHES or sum(server.asked.values()) > MOST_ASKED:
        return f"in {SECONDS} s it asked for {dict(server.asked)}"
    return None


def run(follower):
    """Has followers follow such servers side by side, says where it went wrong, and returns how often it did not and did."""
    rows = {f"{what}, and then {how}": (given, ending) for what, given in GIVEN.items() for how, ending in ENDINGS.items()}
    with concurrent.futures.ThreadPoolExecutor(len(rows)) as pool:
        faults = dict(zip(rows, pool.map(lambda row: fault(follower, *row), rows.values())))
    for name, wrong in faults.items():
        if wrong:
            print(f"FAILED a watch that gives {name}: {wrong}")
    wrong = sum(it is not None for it in faults.values())
    print(f"watches that give nothing new, in {len(rows)} ways: {wrong} of them wrong", flush=True)
    return len(rows) - wrong, wrong
