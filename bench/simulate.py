#!/usr/bin/env python3
"""Measures `kcp simulate` on a script of 100,000 steps: how many it takes in a second.

The script is one that a random search for faults may have: ten ConfigMaps, and then a hundred, are updated all over, and after each
update the change is sent on the link, delivered in two parts and published; now and then the link is cut, or a bookmark is sent.
So one step in five is a request, and each other one is a move of the informer. The time is the processor's, of the program and of what the system
does for it, and the best of several runs; that of a run on the first lines alone is subtracted. Before that the outcomes of one
run are checked.

Usage: simulate.py [--program PATH] [--steps N] [--runs N] [--seconds N]
  --program PATH   an executable that is built; without it `rt run -- simulate` in crates/kcp proves and builds one first
  --steps N        steps of the script, 100000 if left out
  --runs N         runs of each input, of which the best counts, 5 if left out
  --seconds N      the longest that one run may take, 120 if left out
It uses no network, and writes only to a temporary folder.
"""
import os
import pathlib
import subprocess
import sys
import tempfile

import shared

COLLECTION = "/api/v1/namespaces/default/configmaps"
OBJECTS = [10, 100]
# How many rounds go by between two cuts, and between two bookmarks.
CUT_EVERY = 50
BOOKMARK_EVERY = 20
GOAL = 50_000


def first(objects):
    """Returns the lines that set the informer up, and how their outcomes begin."""
    lines = ["config window=1024 workers=1"]
    lines += [f'request POST {COLLECTION} {{"metadata":{{"name":"map-{n:03}"}},"data":{{"k":"v"}}}}' for n in range(objects)]
    lines += ["list configmaps", "publish configmaps", "watch configmaps"]
    return lines, ["201"] * objects + ["listed", "published", "opened"]


def rounds(steps, objects):
    """Returns so many lines of rounds, and how their outcomes begin."""
    lines, begins, number = [], [], 0
    while len(lines) < steps:
        number += 1
        name = f"map-{number * 37 % objects:03}"
        lines.append(f'request PUT {COLLECTION}/{name} {{"metadata":{{"name":"{name}"}},"data":{{"k":"v{number}"}}}}')
        lines += ["send configmaps 1", "deliver configmaps 100", "deliver configmaps all", "publish configmaps"]
        begins += ["200", "sent", "fed", "fed", "published"]
        if number % BOOKMARK_EVERY == 0:
            lines += ["send configmaps bookmark", "deliver configmaps all"]
            begins += ["sent", "fed"]
        if number % CUT_EVERY == 0:
            lines += ["cut configmaps", "watch configmaps"]
            begins += ["cut", "opened"]
    return lines[:steps], begins[:steps]


def run(program, given, limit, output=subprocess.DEVNULL):
    """Returns the seconds of the processor that one run took, and what it wrote, where that is asked for."""
    before = os.times()
    with open(given, "rb") as source:
        done = subprocess.run([program, "simulate"], stdin=source, stdout=output, timeout=limit, check=True)
    after = os.times()
    return after.children_user + after.children_system - before.children_user - before.children_system, done.stdout


def check(program, given, begins, limit):
    """Ends the benchmark where an outcome begins otherwise than it is to."""
    written = run(program, given, limit, subprocess.PIPE)[1].decode().splitlines()
    wrong = [n for n, (line, begin) in enumerate(zip(written, begins), 1) if not line.startswith(begin)]
    if wrong or len(written) != len(begins):
        sys.exit(f"{len(written)} lines for {len(begins)}; wrong from line {wrong[0] if wrong else len(written)}")


def best(program, given, asked):
    return min(run(program, given, asked.seconds)[0] for _ in range(asked.runs))


def measure(program, objects, asked):
    """Returns the seconds that the steps take over so many objects."""
    (before, told), (steps, begins) = first(objects), rounds(asked.steps, objects)
    with tempfile.TemporaryDirectory() as folder:
        short, long = pathlib.Path(folder) / "first", pathlib.Path(folder) / "steps"
        short.write_text("".join(f"{line}\n" for line in before))
        long.write_text("".join(f"{line}\n" for line in before + steps))
        check(program, long, told + begins, asked.seconds)
        return best(program, long, asked) - best(program, short, asked)


def main():
    asked = shared.arguments(__doc__, "steps", most=10_000_000, default=100_000, runs=5)
    program = shared.built(asked.program, "kcp", ["simulate"])
    print(f"best of {asked.runs} runs, processor time on one of {os.cpu_count()} processors; the aim is {GOAL:,} steps a second")
    print("| Objects | Steps | Seconds | Steps a second |")
    print("|---|---|---|---|")
    for objects in OBJECTS:
        seconds = measure(program, objects, asked)
        print(f"| {objects} | {asked.steps:,} | {seconds:.3f} | {shared.rate(asked.steps, seconds)} |")


if __name__ == "__main__":
    main()
