#!/usr/bin/env python3
"""Says what `kcp simulate` has to write, from the rules of docs/SIMULATE.md and docs/API.md and not from the program.

It is as plain as can be: the server (`server.py`) is a list of all changes, what follows it reads whole frames with Python's own JSON, and
the controllers (`plans.py`, `workers.py`) are what those pages say of them. It stops at requests that it does not know.
Usage: oracle.py < LINES
"""
import json
import re
import sys

sys.dont_write_bytecode = True
from server import KINDS, Server, bad, is_revision, reply, text, too_old
from workers import LAST_MOMENT, UNREACHED, Workers

NUMBER = re.compile(rb"[0-9]{1,9}")
END_OF_INITIAL = "k8s.io/initial-events-end"


class Follower:
    """What follows a kind: a reflector, an open watch or none, what is published, and what waits to be."""

    def __init__(self, plural, server, first):
        """Begins with lists, or with streams of initial events: `first` is what is asked for first, and after each end."""
        self.plural, self.server, self.first = plural, server, first
        self.revision, self.named, self.published, self.waiting = 0, 0, {}, []
        self.unhandled, self.has_listed = [], False
        self.begin(first)

    def begin(self, asks):
        """Asks for a list, a stream or a watch, and holds nothing of what was read before."""
        self.asks, self.link, self.buffered, self.initial = asks, None, b"", {}

    def list(self):
        if self.asks != "list":
            return None
        self.begin("watch")
        listed = self.server.listed(self.plural)
        self.replace(self.server.present(), listed)
        return f"listed {self.plural} {self.revision} {len(listed)}"

    def replace(self, revision, objects):
        """Takes in all that is there at a revision."""
        self.revision = revision
        self.waiting.append((revision, "list", objects))

    def watch(self):
        if self.asks != "watch" or self.link:
            return None
        if self.revision < self.server.floor(self.plural):
            self.begin(self.first)
            return f"expired {self.plural}"
        self.open(self.revision, [])
        return f"opened {self.plural} {self.revision}"

    def open(self, stands, initial):
        """Opens a link, on which these frames are to be written before any change."""
        self.link = {"stands": stands, "initial": initial, "unread": b"", "refused": False}

    def stream(self):
        if self.asks != "stream" or self.link:
            return None
        shown = [text({"object": it, "type": "ADDED"}) + "\n" for it in self.server.listed(self.plural)]
        present = self.server.present()
        self.open(present, shown + [self.bookmark({"annotations": {END_OF_INITIAL: "true"}, "resourceVersion": str(present)})])
        return f"streaming {self.plural} {present}"

    def bookmark(self, metadata):
        """Returns the frame of a bookmark."""
        version, kind = KINDS[self.plural][:2]
        return text({"object": {"apiVersion": version, "kind": kind, "metadata": metadata}, "type": "BOOKMARK"}) + "\n"

    def write(self, frames):
        self.link["unread"] += "".join(frames).encode()
        return f"sent {self.plural} {len(frames)}"

    def is_refused(self):
        """Writes the ERROR frame where the link stands below the floor, and returns the outcome; the last frame of all."""
        stands, floor = self.link["stands"], self.server.floor(self.plural)
        if stands >= floor:
            return None
        self.link["refused"] = True
        return self.write([text({"object": too_old(stands, floor)[1], "type": "ERROR"}) + "\n"])

    def send(self, count):
        if not self.link or self.link["refused"]:
            return None
        if initial := self.link["initial"]:
            self.link["initial"] = initial[count:]
            return self.write(initial[:count])
        left = self.server.frames(self.plural, self.link["stands"])
        if refused := self.is_refused():
            return refused
        sent = left[:count]
        if len(left) <= count:
            self.link["stands"] = self.server.present()
        elif sent:
            self.link["stands"] = sent[-1][0]
        return self.write([frame for _, frame in sent])

    def send_bookmark(self):
        if not self.link or self.link["refused"] or self.link["initial"]:
            return None
        if refused := self.is_refused():
            return refused
        if self.server.frames(self.plural, self.link["stands"]):
            return None
        self.link["stands"] = self.server.present()
        return self.write([self.bookmark({"resourceVersion": str(self.server.present())})])

    def deliver(self, count):
        if not self.link:
            return None
        count = len(self.link["unread"]) if count is None else count
        self.buffered += self.link["unread"][:count]
        self.link["unread"] = self.link["unread"][count:]
        end = ""
        while not end and b"\n" in self.buffered:
            line, _, self.buffered = self.buffered.partition(b"\n")
            end = self.take(json.loads(line))
        if end:
            self.begin(self.first)
        return f"fed {self.plural} {self.revision}{end}"

    def take(self, frame):
        """Takes a frame in, and returns why the watch is over, if it is."""
        if frame["type"] == "ERROR":
            return " expired" if frame["object"]["code"] == 410 else " unreadable"
        if self.asks == "stream":
            self.take_initial(frame["type"], frame["object"])
            return ""
        self.revision = int(frame["object"]["metadata"]["resourceVersion"])
        self.waiting.append((self.revision, frame["type"], frame["object"]))
        return ""

    def take_initial(self, change, shown):
        """Takes an initial event in, or the bookmark that closes them: until then nothing is given."""
        if change != "BOOKMARK":
            self.initial[key_of(shown)] = shown
            return
        metadata = shown["metadata"]
        if metadata.get("annotations", {}).get(END_OF_INITIAL) == "true":
            self.replace(int(metadata["resourceVersion"]), list(self.initial.values()))
            self.asks, self.initial = "watch", {}

    def cut(self):
        if not self.link:
            return None
        self.begin(self.asks)
        return f"cut {self.plural} {self.revision}"

    def publish(self):
        """Publishes all that waits, and keeps what it changes, to be handled: of the first list, and of all after it."""
        if not self.revision:
            return None
        for self.named, change, shown in self.waiting:
            after = dict(self.published)
            if change == "list":
                after = {key_of(it): it for it in shown}
            elif change == "DELETED":
                after.pop(key_of(shown), None)
            elif change != "BOOKMARK":
                after[key_of(shown)] = shown
            keys = sorted(self.published.keys() | after.keys()) if change == "list" else [key_of(shown)] if change != "BOOKMARK" else []
            changes = [(self.published.get(key), after.get(key), change == "list" and not self.has_listed) for key in keys]
            self.unhandled += [it for it in changes if is_change(change, *it[:2])]
            self.published, self.has_listed = after, True
        self.waiting, self.has_listed = [], True
        return f"published {self.plural} {self.named} {len(self.published)}"

    def look(self):
        """Returns the revision that is published, and what is, by key."""
        return self.named, {(self.plural, *key): it for key, it in self.published.items()}


def key_of(value):
    return value["metadata"]["namespace"], value["metadata"]["name"]


def is_change(change, old, new):
    """Returns whether something comes of a delta: a list changes what differs, a removal what is there, and whatever is put is a change."""
    if change == "list":
        return not (old and new and text(old) == text(new))
    return bool(old or new)


class Simulation:
    """A server, what follows each kind of it, and the workers of the controllers."""

    def __init__(self, window=1024, workers=4, first="list"):
        self.server, self.first, self.count = Server(window), first, workers
        self.restart()

    def restart(self):
        self.followers = {plural: Follower(plural, self.server, self.first) for plural in KINDS}
        self.workers = Workers(self.count, self.server, self.published)
        return "restarted"

    def published(self):
        """Returns what is published of each kind, or None until all is."""
        are_all = all(it.has_listed for it in self.followers.values())
        return {plural: it.look() for plural, it in self.followers.items()} if are_all else None

    def answer(self, line):
        """Returns what is written for a line that is not empty."""
        if line.startswith(b"request "):
            return self.server.answer(line.removeprefix(b"request "))
        words = line.split(b" ")
        if words[0] == b"compact" and len(words) == 2 and is_revision(words[1]):
            return self.server.compact(int(words[1]))
        if line == b"restart":
            return self.restart() + "\n"
        step = self.step_of(words) or self.step_of_workers(words)
        if step is None:
            return reply(*bad("head"))
        return (step() or "no step") + "\n"

    def step_of(self, words):
        """Returns the step of a follower that words ask for, if they have the form of one."""
        plural = words[1].decode("latin-1") if len(words) in (2, 3) else ""
        if plural not in KINDS:
            return None
        follower, verb = self.followers[plural], words[0]
        if len(words) == 2:
            plain = {b"list": follower.list, b"watch": follower.watch, b"stream": follower.stream, b"handle": lambda: self.handle(plural)}
            return {**plain, b"cut": follower.cut, b"publish": follower.publish}.get(verb)
        if verb == b"send" and words[2] == b"bookmark":
            return follower.send_bookmark
        if verb == b"deliver" and words[2] == b"all":
            return lambda: follower.deliver(None)
        if verb in (b"send", b"deliver") and NUMBER.fullmatch(words[2]):
            return lambda: (follower.send if verb == b"send" else follower.deliver)(int(words[2]))
        return None

    def step_of_workers(self, words):
        """Returns the step of a worker, or of the time, that words ask for, if they have the form of one."""
        if len(words) not in (2, 3) or not NUMBER.fullmatch(words[1]):
            return None
        verb, number, *said = words[0].decode("latin-1"), int(words[1]), *(it.decode("latin-1") for it in words[2:])
        if verb == "tick" and not said:
            return lambda: self.tick(number)
        plain = verb in ("take", "satisfied", "read", "expect", "issue", "finish") and not said
        if plain or verb == "look" and said[0:] and said[0] in KINDS or verb == "issue" and said[0] in UNREACHED:
            return lambda: self.workers.act(number, verb, *said)
        return None

    def tick(self, milliseconds):
        board = self.workers.board
        if board.time + milliseconds > LAST_MOMENT:
            return None
        board.tick(milliseconds)
        return f"time {board.time}"

    def handle(self, plural):
        follower = self.followers[plural]
        if not follower.unhandled:
            return None
        looks = {it: follower.look()[1] for it, follower in self.followers.items()}
        return f"handled {plural} {self.workers.handle(plural, *follower.unhandled.pop(0), looks)}"


def configured(line):
    """Returns the window and how many workers a configuration says, and what followers ask for first, if the line is one."""
    said = re.fullmatch(rb"config window=([0-9]{1,9}) workers=([0-9]{1,9})(?: initial=(list|stream))?", line)
    if said and 1 <= int(said[1]) <= 65_536 and 1 <= int(said[2]) <= 64:
        return int(said[1]), int(said[2]), (said[3] or b"list").decode()
    return None


def simulate(given):
    """Returns what is written for what is read."""
    lines = [line for line in given.split(b"\n") if line]
    said = configured(lines[0]) if lines else None
    simulation = Simulation(*(said or ()))
    return "".join(simulation.answer(line) for line in lines[1 if said else 0:]).encode()


if __name__ == "__main__":
    sys.stdout.buffer.write(simulate(sys.stdin.buffer.read()))
