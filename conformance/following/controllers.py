#!/usr/bin/env python3
"""Has the controller of `controller_example` keep a ConfigMap for each Pod with a label, at a `kcp serve` and at a `kcp all`, while Pods come and go.

First single changes: Pods are made, labelled, run and deleted, the ConfigMap of one is deleted by another writer, and one is written by it right
before the controller's own write, which is so refused as a conflict. A Pod is being deleted, and another writer deletes its ConfigMap, which is then
not made again. Then so many changes at random, one right after another. What has to be there follows from the Pods: after each single change within
so many seconds, and after those at random within a minute. Watches are forbidden for a while, which it says once. The server is then killed, which
the controller says, and started anew, empty, on the same port; of each kind of which it was said that is then over, and what has to be there follows
from the Pods that are made then. The controller's input begins with a line that is no text, which does not matter. At the end its input ends, and so
does it; at a `kcp all` a Pod is then deleted, and the garbage collector removes what it owned. Words that are refused are told at once, with how it
is used, while the input stays open. With `--end` it ends after so many seconds, or goes on, though its input has ended.
Usage: controllers.py --program PATH [--controller PATH] [--writes N] [--seed N] [--within SECONDS]
"""
import argparse
import contextlib
import os
import pathlib
import random
import re
import socket
import subprocess
import sys
import tempfile
import threading
import time

sys.dont_write_bytecode = True
sys.path[1:1] = [str(pathlib.Path(__file__).resolve().parent.parent / "controllers")]
from asking import STREAM, WATCH, asked_for, refusal
from programs import lasting_port
from run import BUILD_SECONDS, PATIENCE, ROOT, Client

LABEL = "app"
SELECTOR = "app in (web, api),!old"
PIECE = 65_536
PAUSE_SECONDS = 0.01
NAMESPACES, NAMES = ["one", "two"], 6
LABELS = [{"app": "web"}, {"app": "api", "tier": "cache"}, {"app": "db"}, {"app": "web", "old": ""}, {}]
PHASES = ["Pending", "Running", "Succeeded"]
# Each single change: what it is, a Pod, and its labels, its phase, or what else is done with it.
CHANGES = [
    ("a Pod with the label is made", "a", {"app": "web"}),
    ("a Pod without it is made", "b", {"app": "db"}),
    ("a Pod gets the label", "b", {"app": "api"}),
    ("a Pod runs", "a", "Running"),
    ("a label of a Pod changes that is not asked for", "a", {"app": "web", "track": "stable"}),
    ("another writer deletes a ConfigMap", "a", "delete the ConfigMap"),
    ("another writer is first, and the write is a conflict", "a", "conflict"),
    ("a Pod loses the label", "b", {"app": "web", "old": ""}),
    ("a Pod is deleted", "a", None),
    ("a Pod of the same name is made", "a", {"app": "api"}),
]
# Words that are refused, what is said of them, and whether its usage follows.
SERVER = ["--server", "127.0.0.1:1"]
REFUSED = [
    ([], "bad arguments", True),
    (SERVER, "bad arguments", True),
    ([*SERVER, "--label", "app"], "not understood: --label", True),
    ([*SERVER, *SERVER], "not understood: --server", True),
    ([*SERVER, "--selector"], "not understood: --selector", True),
    ([*SERVER, "--selector", "app", "--end", "soon"], "not understood: soon", True),
    ([*SERVER, "--selector", "app", "--end", "1234567890"], "not understood: 1234567890", True),
    ([*SERVER, "--selector", "app in web"], "a watch has a selector that cannot be understood", False),
]
# How it ends, by its last words, where its input has ended: with status 0 between these seconds, or not within the last.
ENDS = [([], 0, 30), (["--end", "input"], 0, 30), (["--end", "2"], 2, 30), (["--end", "never"], None, 4)]
AT_ONCE = 20
# For how many seconds nothing may change, and how many more than a single change the end may take.
STAYS_SECONDS, ENDS_SECONDS = 1, 1
# A line of input that is no text.
NO_TEXT = b"\xff\n"
AWAY = "the server does not reply"
FORBIDDEN = "the server answers watches with 403"
# The kinds that it follows, and how often watches of them are refused in all.
FOLLOWED, REFUSALS = ["configmaps", "pods"], 6
HELD = "example.com/held"


def has_label(labels):
    """Returns whether the selector asks for these labels."""
    return labels.get(LABEL) in ("web", "api") and "old" not in labels


def place(value):
    """Returns the namespace and the name of an object."""
    return value["metadata"]["namespace"], value["metadata"]["name"]


class Relay:
    """Relays each connection to a port, whoever listens there. Before a write that comes over it, what is armed is done. It forbids watches while
    it is told to, and then knows no streams of initial events."""

    def __init__(self, port):
        self.port, self.armed, self.conflicts = port, None, 0
        self.forbids, self.forbidden, self.watches = False, 0, []
        self.listener = socket.create_server(("127.0.0.1", 0))
        self.listening = self.listener.getsockname()[1]
        threading.Thread(target=self.accept, daemon=True).start()

    def accept(self):
        """Takes connections for as long as the script runs."""
        while True:
            taken, _ = self.listener.accept()
            threading.Thread(target=self.relay, args=(taken,), daemon=True).start()

    def forbid(self):
        """Forbids watches from now on, and ends those that are open."""
        self.forbids = True
        for taken in self.watches:
            with contextlib.suppress(OSError):
                taken.shutdown(socket.SHUT_RDWR)

    def refusal(self, taken, request):
        """Returns what a request is answered that is forbidden, and keeps the connection of a watch that is not."""
        if (what := asked_for(request)) not in (WATCH, STREAM):
            return None
        if self.forbids:
            self.forbidden += what == WATCH
            return refusal(403 if what == WATCH else 400)
        self.watches.append(taken)
        return None

    def relay(self, taken):
        """Relays one request and its reply. At the end both ends are told, since a socket that is closed while another thread reads it stays open."""
        with contextlib.suppress(OSError), taken:
            request = taken.recv(PIECE)
            if request.startswith(b"PATCH ") and self.armed:
                done, self.armed = self.armed, None
                done()
            if refused := self.refusal(taken, request):
                return taken.sendall(refused)
            with socket.create_connection(("127.0.0.1", self.port)) as server:
                server.sendall(request)
                threading.Thread(target=self.pump, args=(taken, server), daemon=True).start()
                try:
                    self.answer(server, taken)
                finally:
                    taken.shutdown(socket.SHUT_RDWR)
        return None

    def pump(self, source, sink):
        """Relays what comes of one end until there is no more, and tells the other end so."""
        with contextlib.suppress(OSError):
            while got := source.recv(PIECE):
                sink.sendall(got)
            sink.shutdown(socket.SHUT_RDWR)

    def answer(self, server, taken):
        """Relays what a server answers, and counts the conflicts."""
        first = True
        while got := server.recv(PIECE):
            self.conflicts += first and got.startswith(b"HTTP/1.1 409 ")
            first = False
            taken.sendall(got)


class Pods:
    """A client that makes, labels and deletes Pods, and knows what ConfigMaps there have to be."""

    def __init__(self, port):
        self.client, self.labels, self.phases, self.refused = Client(port, 0, 0), {}, {}, []

    def ask(self, method, path, body=None):
        """Asks what has to be accepted, and returns what was answered."""
        status, value = self.client.ask(method, path, body)
        if status not in (200, 201):
            self.refused.append(f"{method} {path}: {status}")
        return value

    def set(self, namespace, name, labels):
        """Gives a Pod these labels, in the place of those that it has; deletes it where none are given."""
        path, key = f"/api/v1/namespaces/{namespace}/pods", (namespace, name)
        value = {"metadata": {"name": name, "labels": labels}, "spec": {"containers": [{"name": "main", "image": "main:1"}]}}
        if labels is None:
            self.ask("DELETE", f"{path}/{name}")
            del self.labels[key]
        elif key in self.labels:
            self.ask("PUT", f"{path}/{name}", value)
            self.labels[key] = labels
        else:
            self.ask("POST", path, value)
            self.labels[key], self.phases[key] = labels, PHASES[0]

    def run(self, namespace, name, phase):
        """Says that a Pod is in a phase, as a kubelet does."""
        path = f"/api/v1/namespaces/{namespace}/pods/{name}"
        value = self.ask("GET", path)
        self.ask("PUT", f"{path}/status", value | {"status": value.get("status", {}) | {"phase": phase}})
        self.phases[namespace, name] = phase

    def wanted(self):
        """Returns the ConfigMaps that there have to be, by namespace and name, each with the phase that it says."""
        return {key: self.phases[key] for key, labels in self.labels.items() if has_label(labels)}

    def found(self):
        """Returns the ConfigMaps that there are, each with the phase that it says, or with a word where another than the Pod of its name owns it."""
        uids = {place(it): [it["metadata"]["uid"]] for it in self.ask("GET", "/api/v1/pods")["items"]}
        maps = self.ask("GET", "/api/v1/configmaps")["items"]
        owners = {place(it): [own["uid"] for own in it["metadata"].get("ownerReferences", [])] for it in maps}
        return {place(it): it.get("data", {}).get("phase") if owners[place(it)] == uids.get(place(it)) else "another's" for it in maps}

    def await_wanted(self, seconds):
        """Waits until there is what has to be, and returns after how many seconds it was; nothing where that takes too long."""
        began = time.monotonic()
        while self.found() != self.wanted():
            if time.monotonic() - began > seconds:
                return None
            time.sleep(PAUSE_SECONDS)
        return time.monotonic() - began


class Run:
    """A server, a controller at it behind a relay, and a client; and what was checked of them."""

    def __init__(self, asked, name):
        self.asked, self.name, self.wrong, self.slowest, self.churned = asked, name, [], 0.0, 0.0
        self.server, self.port = self.serve(lasting_port())
        self.relay, self.pods = Relay(self.port), Pods(self.port)
        words = [asked.controller, "--server", f"127.0.0.1:{self.relay.listening}", "--selector", SELECTOR]
        self.told = tempfile.TemporaryFile()
        self.controller = subprocess.Popen(words, stdin=subprocess.PIPE, stderr=self.told)
        self.controller.stdin.write(NO_TEXT)
        self.controller.stdin.flush()

    def serve(self, port):
        """Starts a server, and returns it with its port, which `kcp serve` says on its output, and `kcp all`, whose output has replies, beside it."""
        said = "stderr" if self.name == "all" else "stdout"
        words = [self.asked.program, self.name, "--port", str(port)]
        started = subprocess.Popen(words, stdin=subprocess.PIPE, **{"stdout": subprocess.DEVNULL, said: subprocess.PIPE})
        return started, int(re.fullmatch(rb"listening 127\.0\.0\.1:(\d+)\n", getattr(started, said).readline())[1])

    def check(self, what, holds):
        """Notes whether something is as it has to be."""
        self.wrong.append(not holds)
        if not holds:
            print(f"FAILED kcp {self.name}: {what}", flush=True)

    def reaches(self, what, seconds=PATIENCE):
        """Checks that there is what has to be within so many seconds, and returns after how many it was."""
        took = self.pods.await_wanted(seconds)
        self.check(f"{what}: {self.pods.found()} in the place of {self.pods.wanted()}", took is not None)
        return seconds if took is None else took

    def reaches_soon(self, what):
        """Checks that there is what has to be after a single change, as soon as is asked for."""
        self.slowest = max(self.slowest, self.reaches(what, self.asked.within))

    def stays(self, what):
        """Checks that there is what has to be, after a time in which it could have changed."""
        time.sleep(STAYS_SECONDS)
        self.check(f"{what}: {self.pods.found()} in the place of {self.pods.wanted()}", self.pods.found() == self.pods.wanted())

    def said(self):
        """Returns what the controller has said on standard error. It writes where the file stands, so this does not move it."""
        file = self.told.fileno()
        return os.pread(file, os.fstat(file).st_size, 0).decode("utf-8", "replace")

    def said_of(self, words):
        """Returns of which kinds the controller has said this, each as often as it has."""
        return sorted(re.findall(rf"(?m)^controller_example: (\w+): {re.escape(words)}$", self.said()))

    def hears(self, what, holds):
        """Checks that the controller soon says what it has to."""
        ends = time.monotonic() + PATIENCE
        while not (held := holds()) and time.monotonic() < ends:
            time.sleep(PAUSE_SECONDS)
        self.check(f"{what}; it said {self.said()!r}", held)

    def annotate(self, name):
        """Writes to a ConfigMap as another writer."""
        self.pods.ask("PATCH", f"/api/v1/namespaces/one/configmaps/{name}", {"metadata": {"annotations": {"written": "by another"}}})

    def change(self, name, done):
        """Makes a single change."""
        if done == "delete the ConfigMap":
            self.pods.ask("DELETE", f"/api/v1/namespaces/one/configmaps/{name}")
        elif done == "conflict":
            self.relay.armed = lambda: self.annotate(name)
            self.pods.run("one", name, "Succeeded")
        elif done in PHASES:
            self.pods.run("one", name, done)
        else:
            self.pods.set("one", name, done)

    def single_changes(self):
        """Makes the single changes, each with what has to be there soon."""
        for what, name, done in CHANGES:
            self.change(name, done)
            self.reaches_soon(what)
            if done == "conflict":
                value = self.pods.ask("GET", f"/api/v1/namespaces/one/configmaps/{name}")
                self.check("a write was refused as a conflict", self.relay.conflicts > 0)
                self.check("what the other writer wrote is still there", "annotations" in value["metadata"])

    def being_deleted(self):
        """Deletes a Pod that a finalizer keeps, then its ConfigMap as another writer, and takes the finalizer away."""
        path, key = "/api/v1/namespaces/one/pods", ("one", "held")
        metadata = {"name": "held", "labels": {"app": "web"}, "finalizers": [HELD]}
        self.pods.ask("POST", path, {"metadata": metadata, "spec": {"containers": [{"name": "main", "image": "main:1"}]}})
        self.pods.labels[key], self.pods.phases[key] = {"app": "web"}, PHASES[0]
        self.reaches_soon("a Pod with a finalizer is made")
        self.pods.ask("DELETE", f"{path}/held")
        self.stays("a Pod is being deleted")
        self.pods.ask("DELETE", "/api/v1/namespaces/one/configmaps/held")
        del self.pods.labels[key]
        self.stays("another writer deletes the ConfigMap of a Pod that is being deleted")
        self.pods.ask("PATCH", f"{path}/held", {"metadata": {"finalizers": None}})
        self.stays("a Pod that was being deleted is gone")

    def churn(self, rolls):
        """Makes changes at random, one right after another."""
        for _ in range(self.asked.writes):
            place = rolls.choice(NAMESPACES), f"pod-{rolls.randrange(NAMES)}"
            if place in self.pods.labels and rolls.random() < 0.3:
                self.pods.run(*place, rolls.choice(PHASES))
            else:
                self.pods.set(*place, None if place in self.pods.labels and rolls.random() < 0.2 else rolls.choice(LABELS))
        self.churned = self.reaches(f"after {self.asked.writes} changes")

    def forbid_watches(self):
        """Has watches refused again and again while lists are given: that is said once, and that it is over only where it is."""
        self.relay.forbid()
        self.hears("it does not say that watches are forbidden", lambda: self.said_of(FORBIDDEN) == FOLLOWED)
        self.hears("it does not ask again", lambda: self.relay.forbidden >= REFUSALS)
        said = self.said_of(FORBIDDEN) + self.said_of(f"no longer: {FORBIDDEN}")
        self.check(f"of refused watches it said {said}", said == FOLLOWED)
        self.relay.forbids = False
        self.hears("it does not say that watches are allowed", lambda: self.said_of(f"no longer: {FORBIDDEN}") == FOLLOWED)
        self.reaches_soon("watches are allowed again")

    def restart(self):
        """Kills the server and starts an empty one on its port, with other Pods."""
        self.server.kill()
        self.server.wait(PATIENCE)
        self.hears("it does not say that the server is away", lambda: self.said_of(AWAY))
        self.server, _ = self.serve(self.port)
        self.hears("it does not say of each kind that this is over", lambda: self.said_of(f"no longer: {AWAY}") == self.said_of(AWAY))
        self.pods.labels, self.pods.phases = {}, {}
        for name, labels in [("a", {"app": "web"}), ("new", {"app": "api"}), ("other", {"app": "db"})]:
            self.pods.set("one", name, labels)
        self.reaches("after another server was started")
        self.pods.set("one", "other", {"app": "web"})
        self.reaches_soon("a change at the other server")

    def end(self):
        """Ends the controller's input, and then the server."""
        self.controller.stdin.close()
        began = time.monotonic()
        with contextlib.suppress(subprocess.TimeoutExpired):
            self.controller.wait(PATIENCE)
        took = time.monotonic() - began
        self.check(f"it ended with {self.controller.returncode} in {took:.1f} s", self.controller.returncode == 0 and took < self.asked.within + ENDS_SECONDS)
        if self.name == "all":
            self.pods.set("one", "new", None)
            self.reaches("the collector removes what a deleted Pod owned")
        self.check(", ".join(self.pods.refused), not self.pods.refused)

    def close(self):
        """Ends what still runs."""
        for started in (self.controller, self.server):
            started.kill()
            started.wait(PATIENCE)


def ran(asked, name):
    """Runs the controller at a server, says what came of it, and returns for each check whether it failed."""
    run = Run(asked, name)
    try:
        run.reaches("nothing is made of nothing")
        run.single_changes()
        run.being_deleted()
        run.churn(random.Random(asked.seed))
        run.forbid_watches()
        run.restart()
        run.end()
    except Exception as fault:
        run.check(f"{type(fault).__name__}: {fault}", False)
    finally:
        run.close()
    times = f"the slowest change took {run.slowest:.2f} s, those at random {run.churned:.2f} s"
    print(f"kcp {name}: {len(run.wrong)} checks, conflicts {run.relay.conflicts}, {times}", flush=True)
    return run.wrong


def refusals(controller):
    """Returns for each words that are refused whether they were not: at once, while the input stays open."""
    wrong = []
    for words, told, has_usage in REFUSED:
        with subprocess.Popen([controller, *words], stdin=subprocess.PIPE, stderr=subprocess.PIPE) as tried:
            with contextlib.suppress(subprocess.TimeoutExpired):
                tried.wait(AT_ONCE)
            status = tried.poll()
            tried.kill()
            said = tried.stderr.read().decode()
        begins = f"controller_example: {told}\n" + ("\nusage: controller_example " if has_usage else "")
        wrong.append(status != 2 or not (said.startswith(begins) if has_usage else said == begins))
        if wrong[-1]:
            print(f"FAILED {' '.join(words)}: it ended with {status} and said {said}")
    return wrong


def ends(controller):
    """Returns for each way to end whether it did not end so, where nobody listens and its input has ended."""
    wrong = []
    for words, least, most in ENDS:
        began = time.monotonic()
        with subprocess.Popen([controller, *SERVER, "--selector", "app", *words], stdin=subprocess.DEVNULL, stderr=subprocess.DEVNULL) as tried:
            with contextlib.suppress(subprocess.TimeoutExpired):
                tried.wait(most)
            status, took = tried.poll(), time.monotonic() - began
            tried.kill()
        wrong.append(status is not None if least is None else status != 0 or took < least)
        if wrong[-1]:
            print(f"FAILED {' '.join(words) or 'no --end'}: after {took:.1f} s its status is {status}")
    return wrong


def built(path):
    """Returns the controller, built with a first run, which asks nothing, where none is given."""
    if path:
        return path
    crate = ROOT / "crates" / "controller_example"
    subprocess.run(["rt", "run"], cwd=crate, stdin=subprocess.DEVNULL, stdout=sys.stderr, timeout=BUILD_SECONDS)
    return str(crate / "out" / "controller_example")


def main():
    parser = argparse.ArgumentParser(description=__doc__.splitlines()[0])
    parser.add_argument("--program", required=True)
    parser.add_argument("--controller")
    parser.add_argument("--writes", type=int, default=200)
    parser.add_argument("--seed", type=int, default=1)
    parser.add_argument("--within", type=float, default=1.0)
    asked = parser.parse_args()
    asked.controller = built(asked.controller)
    wrong = [it for name in ("serve", "all") for it in ran(asked, name)] + refusals(asked.controller) + ends(asked.controller)
    print(f"{len(wrong) - sum(wrong)} passed, {sum(wrong)} failed")
    return 1 if any(wrong) else 0


if __name__ == "__main__":
    sys.exit(main())
