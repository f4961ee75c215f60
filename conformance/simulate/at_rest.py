#!/usr/bin/env python3
"""Lets random schedules of a simulated control plane come to rest, and checks that nothing is left to do.

The schedules are those of `schedules.py`, with clients that also delete and make again under one name, take the name of a set, and roll by
`Recreate`. After their steps all is told, published, handled and worked off, and the clock passes each delay; twice a few more requests and
steps follow, and rest again. Each time the plan of each ReplicaSet, of each Deployment and of the collector for each object, made in Python
(`plans.py`) of the lists of what is there, is empty then.

Excused, by what the schedule has told, is the plan of
- a ReplicaSet that was told last that not all expected pods have been seen: it waits for pods of creates that were lost;
- what lost something that came and went before a later list or stream of its kind: the collector's of what it owned, a ReplicaSet's whose
  pod it was, a Deployment's whose ReplicaSet it was;
- a Deployment whose new set is not there and whose collisions are at their greatest count, or which rolls by `Recreate` and has lost the
  name of its new set to another.

Usage: at_rest.py --program PATH [--count N] [--seed S] [--steps N] [--verbose]      as of schedules.py; 150 steps if left out
"""
import sys

sys.dont_write_bytecode = True
import owed
import plane
import plans
import schedules
from plane import KINDS
from deployments import GREATEST_COUNT, Rollout, count
from schedules import Wrong, spec_of

STEPS = 150
# How often a schedule comes to rest before the last time, and what it does between.
ROUNDS, CLIENTS, MORE_STEPS = 2, 2, 10
# Longer than any delay, and than a ReplicaSet waits for pods.
LONG_MILLISECONDS = 2_000_000
# How often a client does what others do not: of its moves, of what is made again, of the Deployments that are made, of names that are taken.
AGAIN, TAKES_NAME, BETWEEN, RECREATES, AT_GREATEST = 0.25, 0.04, 0.5, 0.25, 0.1


class Journal:
    """What there was of each kind at each revision, by uid, and which of it came and went unseen before a later list or stream."""

    def __init__(self):
        self.states = {kind: [(1, {})] for kind in KINDS}
        self.restart()

    def restart(self):
        self.revisions, self.unseen = dict.fromkeys(KINDS), {kind: [] for kind in KINDS}

    def note(self, kind, objects, revision):
        self.states[kind].append((revision, {owed.uid_of(it): it for it in objects.values()}))

    def at(self, kind, revision):
        return next(it for since, it in reversed(self.states[kind]) if since <= revision)

    def told(self, words):
        """Notes what is told of an informer: the revision that it has, and the span that a later list or stream leaves out."""
        if words[0] == "restarted":
            self.restart()
        elif words[0] in ("listed", "streaming") and self.revisions[words[1]]:
            self.leave_out(words[1], self.revisions[words[1]], int(words[2]))
        if words[0] in ("listed", "fed") and int(words[2]):
            self.revisions[words[1]] = int(words[2])

    def leave_out(self, kind, first, last):
        """Notes each state of what was there between two revisions alone."""
        seen = self.at(kind, first).keys() | self.at(kind, last).keys()
        between = [state for since, state in self.states[kind] if first < since <= last]
        self.unseen[kind] += [it for state in between for uid, it in state.items() if uid not in seen]

    def owners_of_unseen(self, kind, owner):
        """Returns the keys of a kind that controlled something of another kind that was not seen."""
        return {key for it in self.unseen[kind] for key in owed.controller_keys(it, owner)}


class ToRest(schedules.Schedule):
    """A schedule that comes to rest after its steps."""

    def __init__(self, seed, told):
        super().__init__(seed, told)
        self.journal, self.waiting = Journal(), set()

    def told(self, line, reply):
        super().told(line, reply)
        words = reply.split(" ")
        self.journal.told(words)
        if words[0] == "satisfied":
            key = tuple(self.checks.hands[int(words[1])].key.split("/"))
            (self.waiting.discard if words[2] == "yes" else self.waiting.add)(key)
        elif words[0] == "restarted":
            self.waiting.clear()

    def look_back(self, kind):
        """Notes what there is of a kind."""
        objects, present = self.control.objects(kind)
        self.checks.past.note(kind, objects, present)
        self.journal.note(kind, objects, present)

    def end(self):
        """Comes to rest, and again some times after a few more requests of clients and steps."""
        for _ in range(ROUNDS):
            self.come_to_rest()
            for move in [self.client] * CLIENTS + [self.step] * MORE_STEPS:
                move()
        self.come_to_rest()

    def come_to_rest(self):
        """Goes on until nothing moves, however late it is, and checks that nothing is left to do."""
        before, counts = None, self.checks.counts
        while before != (before := [counts[it] for it in ("finished", "listed", "streaming")]):
            self.control.settle()
            self.control.tick(LONG_MILLISECONDS)
            self.control.settle()
        looks = {kind: {(kind, *name): it for name, it in self.control.objects(kind)[0].items()} for kind in KINDS}
        left = [f"{controller} {'/'.join(key)}: {commands}" for controller, key, commands in self.left(looks)]
        if left:
            raise Wrong(f"left to do: {'; '.join(left)}")

    # ---- what is left

    def left(self, looks):
        """Gives what is still to do, and why no excuse holds for it."""
        there = {key: it for look in looks.values() for key, it in look.items()}
        for controller, kinds in (("rs", ("replicasets",)), ("deploy", ("deployments",)), ("gc", KINDS)):
            for key in (key for kind in kinds for key in looks[kind]):
                commands = plans.plan(controller, key, looks, there)
                if commands and (excuse := self.excuse(controller, key, looks)):
                    self.checks.counts[f"excused: {excuse}"] += 1
                elif commands:
                    yield controller, key, ", ".join(f"{verb} {'/'.join(named)}" for verb, named, *_ in commands)

    def excuse(self, controller, key, looks):
        """Returns why something may be left to do for a key, or None."""
        if controller == "gc":
            gone = {owed.uid_of(it) for unseen in self.journal.unseen.values() for it in unseen}
            return "an owner came and went" if any(it["uid"] in gone for it in owed.references(looks[key[0]][key])) else None
        kind, owner = ("pods", "replicasets") if controller == "rs" else ("replicasets", "deployments")
        if key in self.journal.owners_of_unseen(kind, owner):
            return f"{kind} came and went"
        if controller == "rs":
            return "pods are waited for" if key in self.waiting else None
        rollout = Rollout(key, looks[kind.replace("replicasets", "deployments")][key], looks)
        is_greatest = count(rollout.deployment, "collisionCount") == GREATEST_COUNT
        has_lost_name = rollout.is_name_taken() and rollout.spec["strategy"]["type"] == "Recreate"
        return "no new set has a name" if not rollout.new and (is_greatest or has_lost_name) else None

    # ---- clients

    def client(self):
        if self.chosen.random() < AGAIN:
            return self.make_again()
        return self.ask(self.take_name) if self.chosen.random() < TAKES_NAME else super().client()

    def make_again(self):
        """Deletes an owner, and makes another of its name; sometimes between two lists of its kind."""
        kind, name, key = self.some("replicasets", "deployments", "configmaps")
        if key not in self.checks.past.now(kind):
            return
        is_between = self.chosen.random() < BETWEEN
        if is_between:
            self.control.cut(kind)
        spec = {} if kind == "configmaps" else {"spec": spec_of(name.split("-")[0], self.chosen.randrange(4), "one")}
        self.ask(lambda: (kind, "DELETE", plane.path_of(kind, name), None))
        self.ask(lambda: (kind, "POST", plane.path_of(kind), {"metadata": {"name": name}, **spec}))
        if is_between:
            self.control.compact(self.checks.past.present)

    def make_deployment(self):
        """Returns the create of a Deployment; some go by `Recreate`, and some have counted all collisions that there may be."""
        kind, method, path, body = super().make_deployment()
        if self.chosen.random() < RECREATES:
            body["spec"]["strategy"] = {"type": "Recreate"}
        return kind, method, path, body

    def take_name(self):
        """Returns the create of a ReplicaSet with the name that a Deployment's next set is to have, or a status that says all collisions."""
        looks = {kind: {(kind, *plane_key): it for plane_key, it in self.control.objects(kind)[0].items()} for kind in KINDS}
        key = self.chosen.choice(list(looks["deployments"]) or [None])
        if not key:
            return self.make_deployment()
        if self.chosen.random() < AT_GREATEST:
            body = {"metadata": {"name": key[2]}, "status": {"collisionCount": GREATEST_COUNT}}
            return "deployments", "PUT", f"{plane.path_of('deployments', key[2])}/status", body
        name = Rollout(key, looks["deployments"][key], looks).name()
        return "replicasets", "POST", plane.path_of("replicasets"), {"metadata": {"name": name}, "spec": spec_of("other", 0, "one")}


def main():
    parser = schedules.read_options(__doc__)
    parser.set_defaults(steps=STEPS)
    schedules.run_all(ToRest, parser.parse_args())


if __name__ == "__main__":
    main()
