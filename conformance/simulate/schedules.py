#!/usr/bin/env python3
"""Runs random schedules of a simulated control plane, and checks what is told of them.

Each schedule has 300 steps: requests of clients, sends, deliveries, cuts, compactions and restarts, and the workers' turns with commands
that are lost and dropped; each comes from its seed alone. Nothing is known of what the program is to write but this page's checks. After
each step that may write, the lists of the kind are asked for, so that it is known what there was at each revision. Then

- a list and a published copy have as many objects as there were of the kind at their revision, a stream of initial events is of the present
  revision, and published revisions never fall between two restarts;
- no worker takes a key that another one has;
- a look is at what is published, and a live read is of what is there;
- an update that is accepted replaced a version that its worker had looked at, read live or been answered in its turn; and a delete an
  object that it had looked at or read;
- a turn is done where all its commands were accepted, and only there.

With `--oracle` each line that is written is also compared with what the oracle says. `at_rest.py` lets the schedules come to rest.
Usage: schedules.py --program PATH [--count N] [--seed S] [--steps N] [--oracle] [--verbose]
  --count N    how many schedules, 100 if left out
  --seed S     the seed of the first, 1 if left out; the others follow one by one
  --steps N    how many steps each has
  --oracle     compares each line with what the oracle says
  --verbose    shows each step
"""
import argparse
import collections
import concurrent.futures
import os
import random
import sys

sys.dont_write_bytecode = True
import oracle
import plane
from plane import KINDS

STEPS = 300
NAMES = ("web", "api")
PAGES = ("one", "two", "three")
FINALIZERS = ([], [], [], ["example.com/x"])
POLICIES = (None, None, "Background", "Background", "Foreground", "Orphan")


class Wrong(Exception):
    """A check fails."""


def check(holds, text):
    """Ends a schedule where a check fails."""
    if not holds:
        raise Wrong(text)


# ---- what there was at each revision


Stored = collections.namedtuple("Stored", "version uid")


class Past:
    """What there was of each kind at each revision, by lists of the present."""

    def __init__(self):
        self.present = 1
        self.of_kind = {kind: [(0, {})] for kind in KINDS}

    def at(self, kind, revision):
        """Returns the objects of a kind at a revision, by key."""
        return next(it for since, it in reversed(self.of_kind[kind]) if since <= revision)

    def now(self, kind):
        return self.of_kind[kind][-1][1]

    def note(self, kind, objects, present):
        """Notes a list of a kind at the present revision, which one step wrote at most."""
        check(self.present <= present <= self.present + 1, f"revision {present} comes after {self.present}")
        found = {}
        for (namespace, name), it in objects.items():
            found[f"{kind}/{namespace}/{name}"] = Stored(int(it["metadata"]["resourceVersion"]), it["metadata"]["uid"])
        if found == self.now(kind):
            check(present == self.present, f"revision {present} wrote nothing of {kind}")
            return
        check(present == self.present + 1, f"the {kind} are others at revision {present}")
        changed = {key for key in found.keys() | self.now(kind).keys() if found.get(key) != self.now(kind).get(key)}
        check(len(changed) == 1, f"revision {present} changed {sorted(changed)}")
        check(all(found[key].version == present for key in changed if key in found), f"a write has another version than {present}")
        self.present = present
        self.of_kind[kind].append((present, found))


# ---- what workers have seen


class Hand:
    """What a worker has seen in its turn, and what it was answered."""

    def __init__(self, controller, key):
        self.controller = controller
        self.key = key
        self.looks = {}
        self.reads = {}
        self.written = collections.defaultdict(set)
        self.refused = False
        self.is_expecting = None

    def known(self, past, key):
        """Returns what it may know of an object: as it looked at it, as it read it, and as its own commands left it."""
        kind = key.split("/")[0]
        looked = [past.at(kind, self.looks[kind]).get(key)] if kind in self.looks else []
        return {*looked, self.reads.get(key), *self.written[key]} - {None}


class Checks:
    """Follows what is told of a schedule's steps, and checks it."""

    def __init__(self, workers):
        self.past = Past()
        self.hands = [None] * workers
        self.published = {}
        self.time = 0
        self.counts = collections.Counter()

    def told(self, line, reply):
        """Checks what is told of a step that is open and no request."""
        words = reply.split(" ")
        test = getattr(self, f"told_{words[0]}", None)
        if reply != plane.CLOSED and test:
            self.counts[words[0]] += 1
            test(line.split(" "), words[1:])

    def told_listed(self, _, words):
        kind, revision, count = words[0], int(words[1]), int(words[2])
        check(revision == self.past.present, f"the list is of revision {revision}, and not of {self.past.present}")
        check(count == len(self.past.now(kind)), f"{count} are listed, and not {len(self.past.now(kind))}")

    def told_streaming(self, _, words):
        kind, revision = words[0], int(words[1])
        check(revision == self.past.present, f"the stream of {kind} is of revision {revision}, and not of {self.past.present}")

    def told_published(self, _, words):
        kind, revision, count = words[0], int(words[1]), int(words[2])
        there = len(self.past.at(kind, revision))
        check(revision <= self.past.present, f"revision {revision} is yet to come")
        check(count == there, f"{count} {kind} are published at revision {revision}, where there were {there}")
        check(revision >= self.published.get(kind, 0), f"the published revision falls from {self.published.get(kind)} to {revision}")
        self.published[kind] = revision

    def told_restarted(self, *_):
        self.hands = [None] * len(self.hands)
        self.published = {}
        self.time = 0

    def told_time(self, line, words):
        self.time += int(line[1])
        check(int(words[0]) == self.time, f"the time is {words[0]}, and not {self.time}")

    def told_took(self, _, words):
        worker = int(words[0])
        check(self.hands[worker] is None, f"worker {worker} takes a key in its turn")
        check(len(self.published) == len(KINDS), "a key is taken before all kinds are published")
        if words[1:] == ["none"]:
            return
        taken = (words[1], words[2])
        held = {(it.controller, it.key) for it in self.hands if it}
        check(taken not in held, f"{' '.join(taken)} is in two hands")
        self.hands[worker] = Hand(*taken)

    def hand(self, word):
        """Returns the hand of a worker that is in its turn."""
        found = self.hands[int(word)]
        check(found is not None, f"worker {word} is in no turn")
        return found

    def told_looked(self, _, words):
        kind, revision = words[1], int(words[2])
        check(revision == self.published[kind], f"a look is at revision {revision}, where {self.published[kind]} is published")
        self.hand(words[0]).looks[kind] = revision

    def told_satisfied(self, _, words):
        check(self.hand(words[0]).controller == "rs", "only the turn of a ReplicaSet asks whether expected pods were seen")

    def told_read(self, _, words):
        hand, key = self.hand(words[0]), words[1]
        found = self.past.now(key.split("/")[0]).get(key)
        check(words[2] == (str(found.version) if found else "absent"), f"{key} is read as {words[2]}, where there is {found}")
        check(key not in hand.reads, f"{key} is read twice")
        hand.reads[key] = found

    def told_expected(self, _, words):
        hand = self.hand(words[0])
        check(hand.controller == "rs" and hand.is_expecting is None, "pods are expected where none can be")
        hand.is_expecting = {"create": int(words[1]), "delete": int(words[2])}
        check(sorted(hand.is_expecting.values())[0] == 0, "pods are both created and deleted")
        check(sum(hand.is_expecting.values()) > 0, "no pods are expected")

    def told_issued(self, line, words):
        """Checks a command, before its kind is listed."""
        hand, (verb, key, code) = self.hand(words[0]), words[1:]
        check((code == "lost") == (line[-1] in ("lost", "dropped")), f"the answer is {code}")
        check(not hand.refused, "a command follows one that was not accepted")
        hand.refused = code not in ("200", "201", "202")
        self.counts[f"{verb} {code}"] += 1
        if hand.controller == "rs" and key.startswith("pods/") and verb in ("create", "delete"):
            check(hand.is_expecting is not None and hand.is_expecting[verb] > 0, f"{verb} {key} was not expected")
            hand.is_expecting[verb] -= 1
        if code == "200" or code == "202":
            self.replaced(hand, verb, key)

    def replaced(self, hand, verb, key):
        """Checks which version an accepted command replaced. The collector's deletes name one; others name the object."""
        there, known = self.past.now(key.split("/")[0]).get(key), hand.known(self.past, key)
        check(there is not None, f"{verb} {key} is accepted, where it is not there")
        if verb == "delete" and hand.controller != "gc":
            check(there.uid in {it.uid for it in known}, f"{verb} {key} of another object than was looked at")
        else:
            check(there in known, f"{verb} {key} replaced version {there.version}; seen were {sorted(it.version for it in known)}")

    def after_issue(self, worker, reply):
        """Keeps in mind how an accepted command left its object, once its kind is listed."""
        key, code = reply.split(" ")[3:]
        left = self.past.now(key.split("/")[0]).get(key)
        if code in ("200", "201", "202") and left:
            self.hand(worker).written[key].add(left)

    def told_finished(self, _, words):
        hand = self.hand(words[0])
        check(words[1] == ("retry" if hand.refused else "done"), f"a turn ends with {words[1]}")
        check(hand.refused or not any((hand.is_expecting or {}).values()), "pods that were expected were neither created nor deleted")
        self.hands[int(words[0])] = None


# ---- what is done


def spec_of(name, replicas, image):
    """Returns the spec of a ReplicaSet or Deployment."""
    labels = {"app": name}
    template = {"metadata": {"labels": labels}, "spec": {"containers": [{"name": name, "image": image}]}}
    return {"replicas": replicas, "selector": {"matchLabels": labels}, "template": template}


class Schedule:
    """A random schedule, step by step."""

    def __init__(self, seed, told, has_oracle=False):
        self.chosen = random.Random(seed)
        self.workers = self.chosen.randrange(1, 4)
        self.checks = Checks(self.workers)
        self.window = self.chosen.choice((2, 4, 8, 64))
        self.initial = self.chosen.choice(("list", "stream"))
        self.oracle = oracle.Simulation(self.window, self.workers, self.initial) if has_oracle else None
        self.taken = 0
        self.has_work = False
        self.show = told

    def told(self, line, reply):
        """Checks what is told of a step, and lists what a command may have written."""
        if self.show:
            self.show(line, reply)
        if self.oracle:
            wanted = self.oracle.answer(line.encode()).rstrip("\n")
            check(reply == wanted, f"{line} is answered {reply}, and not {wanted}")
        if not line.startswith("request GET /"):
            self.taken += 1
        self.has_work |= reply.startswith(("handled ", "finished ", "time "))
        if not line.startswith("request "):
            self.checks.told(line, reply)
        elif not reply[:3].isdigit():
            raise Wrong(f"a request is answered {reply}")
        if reply.startswith("issued "):
            self.look_back(reply.split(" ")[3].split("/")[0])
            self.checks.after_issue(line.split(" ")[1], reply)

    def run(self, words, steps):
        """Takes so many steps, after those that create and publish something."""
        with plane.Plane(words, window=self.window, workers=self.workers, initial=self.initial, told=self.told) as self.control:
            self.begin()
            while self.taken < steps:
                self.step()
            self.end()

    def end(self):
        """Does what is to be done after the steps."""

    def begin(self):
        """Creates one of the owners, and publishes all kinds."""
        self.ask(self.chosen.choice((self.make_set, self.make_deployment)))
        for kind in KINDS:
            self.control.begin(kind)
            self.control.publish(kind)

    def step(self):
        """Takes a step, or the few of a client that goes together. Workers go on most of the time."""
        moves = {self.work: 70, self.inform: 14, self.client: 6, self.kubelet: 3, self.time: 2, self.rare: 1}
        self.chosen.choices(list(moves), list(moves.values()))[0]()

    # ---- workers

    def work(self):
        """Goes on with a worker, mostly as its turn goes. Where no key waited, none is taken before something happens."""
        worker = self.chosen.randrange(self.workers)
        if self.chosen.random() < 0.05:
            self.astray(worker)
        elif self.control.turns[worker] is None:
            if self.has_work:
                self.has_work = not self.control.take(worker).endswith(" none")
            else:
                self.inform()
        else:
            how = self.chosen.choices((None, "lost", "dropped"), (85, 8, 7))[0]
            self.control.advance(worker, how)

    def astray(self, worker):
        """Asks for a step that need not be open."""
        to, kind = self.control, self.chosen.choice(KINDS)
        actions = (to.take, to.satisfied, to.read, to.expect, to.issue, to.finish, lambda it: to.look(it, kind))
        self.chosen.choice(actions)(worker)

    def look_back(self, kind):
        """Notes what there is of a kind."""
        self.checks.past.note(kind, *self.control.objects(kind))

    # ---- informers

    def inform(self):
        """Takes a step of an informer."""
        kind, to = self.chosen.choice(KINDS), self.control
        some_frames = lambda it: to.send(it, self.chosen.randrange(3))
        some_bytes = lambda it: to.deliver(it, self.chosen.randrange(600))
        moves = {to.list: 1, to.stream: 2, to.begin: 1, to.watch: 2, to.send: 4}
        moves |= {some_frames: 2, to.bookmark: 1, to.deliver: 5, some_bytes: 2}
        moves |= {to.publish: 6, to.handle: 12, to.cut: 0.3, self.bring_up: 15}
        self.chosen.choices(list(moves), list(moves.values()))[0](kind)

    def bring_up(self, kind):
        """Brings the copy of a kind up to date, and handles one change."""
        self.control.begin(kind)
        self.control.watch(kind)
        self.control.send(kind)
        self.control.deliver(kind)
        self.control.publish(kind)
        self.control.handle(kind)

    # ---- clients

    def ask(self, request):
        """Has a client ask for something, and notes what there is afterwards."""
        kind, *asked = request()
        self.control.request(*asked)
        self.look_back(kind)

    def client(self):
        """Has a client ask for one of the things that clients ask for."""
        makes = {self.make_set: 3, self.make_deployment: 3, self.make_pod: 2, self.make_page: 2, self.scale: 5}
        makes |= {self.change_template: 3, self.remove: 5, self.let_go: 3, self.label: 2}
        self.ask(self.chosen.choices(list(makes), list(makes.values()))[0])

    def some(self, *kinds):
        """Returns the kind, the name and the key of an object of these kinds; one that is not there where there is none."""
        there = [key for kind in kinds for key in self.checks.past.now(kind)]
        key = self.chosen.choice(there) if there else f"{kinds[0]}/default/none"
        kind, _, name = key.split("/")
        return kind, name, key

    def owners(self):
        """Returns a reference to an owner that is there, or none."""
        kind, name, key = self.some("replicasets", "deployments", "configmaps")
        found = self.checks.past.now(kind).get(key)
        if not found or self.chosen.random() < 0.3:
            return []
        api = "v1" if kind == "configmaps" else "apps/v1"
        named = {"configmaps": "ConfigMap", "replicasets": "ReplicaSet", "deployments": "Deployment"}[kind]
        return [{"apiVersion": api, "kind": named, "name": name, "uid": found.uid, "blockOwnerDeletion": self.chosen.random() < 0.5}]

    def make_set(self):
        return self.make_owner("replicasets")

    def make_deployment(self):
        return self.make_owner("deployments")

    def make_owner(self, kind):
        """Returns the create of what owns pods."""
        name = self.chosen.choice(NAMES)
        body = {"metadata": {"name": name}, "spec": spec_of(name, self.chosen.randrange(4), "one")}
        return kind, "POST", plane.path_of(kind), body

    def make_pod(self):
        name, label = f"pod-{self.chosen.choice('abc')}", self.chosen.choice(NAMES)
        metadata = {"name": name, "labels": {"app": label}, "finalizers": self.chosen.choice(FINALIZERS)}
        return "pods", "POST", plane.path_of("pods"), {"metadata": metadata, "spec": {}}

    def make_page(self):
        metadata = {"name": self.chosen.choice(PAGES), "ownerReferences": self.owners(), "finalizers": self.chosen.choice(FINALIZERS)}
        return "configmaps", "POST", plane.path_of("configmaps"), {"metadata": metadata}

    def scale(self):
        kind, name, _ = self.some("replicasets", "deployments")
        return kind, "PATCH", plane.path_of(kind, name), {"spec": {"replicas": self.chosen.randrange(4)}}

    def change_template(self):
        kind, name, _ = self.some("deployments")
        image = self.chosen.choice(("one", "two", "three"))
        return kind, "PATCH", plane.path_of(kind, name), {"spec": {"template": {"spec": {"containers": [{"name": name, "image": image}]}}}}

    def remove(self):
        """Returns a delete of anything, by any policy."""
        kind, name, _ = self.some(*KINDS)
        policy = self.chosen.choice(POLICIES)
        return kind, "DELETE", plane.path_of(kind, name), {"propagationPolicy": policy} if policy else None

    def let_go(self):
        """Returns a patch that takes all finalizers off."""
        kind, name, _ = self.some("configmaps", "pods")
        return kind, "PATCH", plane.path_of(kind, name), {"metadata": {"finalizers": None}}

    def label(self):
        kind, name, _ = self.some("pods", "replicasets")
        return kind, "PATCH", plane.path_of(kind, name), {"metadata": {"labels": {"seen": self.chosen.choice("xyz")}}}

    def kubelet(self):
        """Says of a pod that it is ready, or has failed."""
        _, name, _ = self.some("pods")
        phase, state = self.chosen.choices((("Running", "True"), ("Running", "False"), ("Failed", "False")), (6, 1, 1))[0]
        status = {"phase": phase, "conditions": [{"type": "Ready", "status": state}]}
        self.ask(lambda: ("pods", "PUT", f"{plane.path_of('pods', name)}/status", {"metadata": {"name": name}, "status": status}))

    # ---- what is rare

    def time(self):
        self.control.tick(self.chosen.choice((1, 5, 20, 1000, 400_000)))

    def rare(self):
        """Compacts the server, or starts the program of controllers again."""
        if self.chosen.random() < 0.3:
            self.control.restart()
        else:
            self.control.compact(self.chosen.randrange(self.checks.past.present + 2))


# ---- all schedules


def shown(line, reply):
    """Shows a step."""
    print(f"  {line}\n    {reply}", flush=True)


def tried(schedule, words, steps):
    """Runs a schedule. Returns what is wrong, or None, and how often each outcome came."""
    try:
        schedule.run(words, steps)
    except (Wrong, plane.Broken, KeyError, ValueError, OSError) as error:
        return f"step {schedule.taken}: {error!r}", schedule.checks.counts
    return None, schedule.checks.counts


def read_options(text):
    """Returns the parser of what schedules are asked for."""
    parser = argparse.ArgumentParser(description=text.splitlines()[0])
    plane.add_program(parser)
    parser.add_argument("--count", type=int, default=100)
    parser.add_argument("--seed", type=int, default=1)
    parser.add_argument("--steps", type=int, default=STEPS)
    parser.add_argument("--verbose", action="store_true")
    return parser


def run_all(make, asked):
    """Runs the schedule that is made of each seed, says which failed and what came of all, and ends with a status that says so."""
    words, told, failed, counts = plane.words_of(asked.program), shown if asked.verbose else None, 0, collections.Counter()
    side_by_side = 1 if asked.verbose else min(4, os.cpu_count() or 1)
    with concurrent.futures.ThreadPoolExecutor(side_by_side) as pool:
        seeds = range(asked.seed, asked.seed + asked.count)
        for seed, (wrong, came) in zip(seeds, pool.map(lambda seed: tried(make(seed, told), words, asked.steps), seeds)):
            counts += came
            failed += wrong is not None
            if wrong:
                print(f"FAILED seed {seed}, {wrong}", flush=True)
    print(", ".join(f"{name} {count}" for name, count in sorted(counts.items())))
    print(f"{asked.count - failed} passed, {failed} failed")
    sys.exit(1 if failed or not asked.count else 0)


def main():
    parser = read_options(__doc__)
    parser.add_argument("--oracle", action="store_true")
    asked = parser.parse_args()
    run_all(lambda seed, told: Schedule(seed, told, asked.oracle), asked)


if __name__ == "__main__":
    main()
