"""Drives a `kcp simulate` process, one line at a time.

    with Plane([program, "simulate"], window=16, workers=2) as plane:
        plane.create("replicasets", {"metadata": {"name": "web"}, ..})
        plane.settle()

`step` sends a line and returns what is written for it; each form of a line has a method of that name. `settle` goes on until nothing is
left to do. `docs/SIMULATE.md` says what the lines mean.
"""
import json
import subprocess

KINDS = ("configmaps", "pods", "replicasets", "deployments")
PREFIXES = {"configmaps": "/api/v1", "pods": "/api/v1", "replicasets": "/apis/apps/v1", "deployments": "/apis/apps/v1"}
LOOKS = {"rs": ("replicasets", None, "pods"), "deploy": ("deployments", "replicasets", "pods"), "gc": KINDS}
CLOSED = "no step"
# More frames and bytes than a link ever holds here.
ALL_FRAMES = 999_999_999
# More rounds than a control plane of a few objects takes to come to rest.
MOST_ROUNDS = 500
# Longer than any delay of a key that has failed up to ten times.
PATIENCE = 6000


class Broken(Exception):
    """What was written for a line is not what can come of it."""


class Turn:
    """A worker's turn: whose it is, its key, and how much of its order it has seen."""

    def __init__(self, controller, key):
        self.controller = controller
        self.key = key
        self.seen = 0

    def sight(self, worker):
        """Returns the line of what it sees next, or none."""
        order = LOOKS[self.controller]
        if self.seen == len(order):
            return None
        kind = order[self.seen]
        return f"look {worker} {kind}" if kind else f"satisfied {worker}"


class Plane:
    """A simulated control plane."""

    def __init__(self, words, window=1024, workers=4, initial="list", told=None):
        """Starts one, whose followers begin with a `list` or a `stream`. `told(line, reply)` is called after each step."""
        self.workers = workers
        self.told = told
        self.turns = [None] * workers
        self.revisions = dict.fromkeys(KINDS)
        self.process = subprocess.Popen(words, stdin=subprocess.PIPE, stdout=subprocess.PIPE)
        self.put(f"config window={window} workers={workers} initial={initial}")

    def __enter__(self):
        return self

    def __exit__(self, *_):
        self.process.stdin.close()
        self.process.stdout.close()
        self.process.wait()

    # ---- lines

    def put(self, line):
        """Sends a line that nothing is written for."""
        self.process.stdin.write(line.encode() + b"\n")
        self.process.stdin.flush()

    def get(self):
        """Returns the next line that is written."""
        line = self.process.stdout.readline()
        if not line.endswith(b"\n"):
            raise Broken(f"the program wrote no whole line: {line!r}")
        return line.decode().rstrip("\n")

    def step(self, line):
        """Takes a step, and returns what is told of it."""
        self.put(line)
        reply = self.get()
        self.note(line.split(" "), reply.split(" "))
        if self.told:
            self.told(line, reply)
        return reply

    def note(self, asked, reply):
        """Keeps in mind where the workers' turns stand, and what is published."""
        match asked[0], reply:
            case "take", ["took", worker, controller, key]:
                self.turns[int(worker)] = Turn(controller, key)
            case ("look" | "satisfied"), [("looked" | "satisfied"), worker, *_]:
                self.turns[int(worker)].seen += 1
            case "finish", ["finished", worker, _]:
                self.turns[int(worker)] = None
            case "publish", ["published", kind, revision, _]:
                self.revisions[kind] = int(revision)
            case "restart", ["restarted"]:
                self.turns = [None] * self.workers
                self.revisions = dict.fromkeys(KINDS)

    # ---- requests

    def request(self, method, path, body=None):
        """Asks the server, and returns the code and the body of its reply."""
        said = "" if body is None else " " + json.dumps(body, separators=(",", ":"), ensure_ascii=False)
        code, text = self.step(f"request {method} {path}{said}").split(" ", 1)
        return int(code), json.loads(text)

    def want(self, code, method, path, body=None):
        """Asks the server for what has to be answered with a code, and returns the body."""
        was, reply = self.request(method, path, body)
        if was != code:
            raise Broken(f"{method} {path}: {was} {reply} in the place of {code}")
        return reply

    def create(self, kind, body):
        """Creates an object in the namespace `default`, as do the calls below with theirs, and returns it."""
        return self.want(201, "POST", path_of(kind), body)

    def update(self, kind, name, body):
        return self.want(200, "PUT", path_of(kind, name), body)

    def update_status(self, kind, name, body):
        return self.want(200, "PUT", f"{path_of(kind, name)}/status", body)

    def patch(self, kind, name, body):
        return self.want(200, "PATCH", path_of(kind, name), body)

    def delete(self, kind, name, policy=None):
        code = 202 if policy == "Foreground" else 200
        return self.want(code, "DELETE", path_of(kind, name), {"propagationPolicy": policy} if policy else None)

    def objects(self, kind):
        """Returns the objects of a kind by namespace and name, and the present revision."""
        reply = self.want(200, "GET", f"{PREFIXES[kind]}/{kind}")
        metadata = [(it["metadata"]["namespace"], it["metadata"]["name"]) for it in reply["items"]]
        return dict(zip(metadata, reply["items"])), int(reply["metadata"]["resourceVersion"])

    def at(self, moment):
        """Sets the moment of later requests, for which nothing is written."""
        self.put(f"request AT {moment}")

    def compact(self, revision):
        return self.step(f"compact {revision}")

    # ---- an informer

    def list(self, kind):
        return self.step(f"list {kind}")

    def watch(self, kind):
        return self.step(f"watch {kind}")

    def stream(self, kind):
        return self.step(f"stream {kind}")

    def begin(self, kind):
        """Asks for all that is there: by a list, or by a stream of initial events, which is taken in whole. Returns whether either was
        open."""
        if self.stream(kind) == CLOSED:
            return self.list(kind) != CLOSED
        self.send(kind)
        self.deliver(kind)
        return True

    def send(self, kind, count=ALL_FRAMES):
        return self.step(f"send {kind} {count}")

    def bookmark(self, kind):
        return self.step(f"send {kind} bookmark")

    def deliver(self, kind, count="all"):
        return self.step(f"deliver {kind} {count}")

    def cut(self, kind):
        return self.step(f"cut {kind}")

    def publish(self, kind):
        return self.step(f"publish {kind}")

    def handle(self, kind):
        return self.step(f"handle {kind}")

    # ---- workers

    def take(self, worker):
        return self.step(f"take {worker}")

    def look(self, worker, kind):
        return self.step(f"look {worker} {kind}")

    def satisfied(self, worker):
        return self.step(f"satisfied {worker}")

    def read(self, worker):
        return self.step(f"read {worker}")

    def expect(self, worker):
        return self.step(f"expect {worker}")

    def issue(self, worker, how=None):
        """Issues the next command; `how` is `lost` or `dropped`."""
        return self.step(f"issue {worker} {how}" if how else f"issue {worker}")

    def finish(self, worker):
        return self.step(f"finish {worker}")

    # ---- the program

    def tick(self, milliseconds):
        return self.step(f"tick {milliseconds}")

    def restart(self):
        return self.step("restart")

    # ---- until nothing is to do

    def advance(self, worker, how=None):
        """Takes the next step of a worker's turn, by trying in order what it can be; a command is issued as `how` says. Returns what is
        told of it."""
        line = self.turns[worker].sight(worker)
        if line:
            return self.step(line)
        for again in (self.read, self.expect, lambda it: self.issue(it, how), self.finish):
            reply = again(worker)
            if reply != CLOSED:
                return reply
        raise Broken(f"worker {worker} has no next step")

    def turn(self, worker):
        """Goes on with a worker's turn to its end, and returns whether all was accepted."""
        while self.turns[worker]:
            reply = self.advance(worker)
        return reply.endswith(" done")

    def inform(self, kind):
        """Brings the copy of a kind up to date, and handles what changed. Returns whether anything did."""
        moved = self.begin(kind)
        moved = self.watch(kind) != CLOSED or moved
        self.send(kind)
        self.deliver(kind)
        before = self.revisions[kind]
        self.publish(kind)
        moved = self.revisions[kind] != before or moved
        while self.handle(kind) != CLOSED:
            moved = True
        return moved

    def work(self):
        """Has the workers take keys and do what is to do for them, until none is queued. Returns how many turns there were, and
        whether all that was issued was accepted."""
        turns, accepted = 0, True
        for worker, turn in enumerate(self.turns):
            if turn:
                turns, accepted = turns + 1, self.turn(worker) and accepted
        while self.take(turns % self.workers).split(" ")[-1] not in ("none", "step"):
            accepted = self.turn(turns % self.workers) and accepted
            turns += 1
        return turns, accepted

    def settle(self, most=MOST_ROUNDS):
        """Goes on until nothing is to do: what happened is told, published and handled, and all keys are worked off; keys that wait
        for a delay are waited for."""
        for _ in range(most):
            moved = [self.inform(kind) for kind in KINDS]
            turns, accepted = self.work()
            if not accepted:
                self.tick(PATIENCE)
            elif not any(moved) and not turns:
                return
        raise Broken(f"there is still something to do after {most} rounds")


def path_of(kind, name=None, namespace="default"):
    """Returns the path of a collection, or of an object in it."""
    folder = f"{PREFIXES[kind]}/namespaces/{namespace}/{kind}"
    return f"{folder}/{name}" if name else folder


def add_program(parser):
    """Adds the option that names the program."""
    parser.add_argument("--program", required=True, metavar="PATH", help="the executable of kcp")


def words_of(program):
    """Returns the command that runs a program's simulation."""
    return [program, "simulate"]
