#!/usr/bin/env python3
"""Measures plans: how long the ReplicaSet controller and the garbage collector take to plan for a set with many pods, and the
Deployment controller for a Deployment with many sets.

The pods run on 50 nodes, half of them are ready, and each says what it costs to delete it. The ReplicaSet controller plans
for 500 and for 5,000 of them, where only the status of the set is to be updated, and where half of the pods are too many, of
which it deletes 500 at most in one turn. The collector plans for a set that is being deleted: one that waits for its pods,
and one that leaves them. The Deployment controller plans where the new set grows, and where all pods are of the new set, so
that sets beyond the history are deleted. Each run is a process of its own, and each figure the best of several, by the
processor's time, less that of a run that makes the objects and plans nothing. How many commands were planned is checked.

Usage: plans.py [--program PATH] [--plans N] [--runs N] [--seconds N]
  --program PATH   an executable that is built; without it `rt run -- plan half 500 2` in crates/benchmarks proves and builds one first
  --plans N        how many plans are made for 500 pods, and fewer for more; 1000 if left out
  --runs N         runs of each kind, of which the best counts, 5 if left out
  --seconds N      the longest that one run may take, 120 if left out
It uses no network, and writes no files but those of the build.
"""
import os
import resource
import subprocess
import sys

import shared

FEW, MANY = 500, 5000

# At most so many pods are deleted in one turn.
MOST = 500

# How many sets a Deployment has, and how many of them it keeps beside the new one.
SETS, HISTORY = 20, 10

# What is planned, of how many pods or sets, and how many commands the plan has.
ROWS = [
    ("status", "ReplicaSet: the status alone", FEW, 1),
    ("status", "ReplicaSet: the status alone", MANY, 1),
    ("half", "ReplicaSet: half of the pods are too many", FEW, FEW // 2 + 1),
    ("half", "ReplicaSet: half of the pods are too many", MANY, MOST + 1),
    ("foreground", "collector: a set that waits for its pods", FEW, 0),
    ("orphan", "collector: a set that leaves its pods", FEW, FEW + 1),
    ("rollout", "Deployment: its new set grows", SETS, 2),
    ("history", "Deployment: sets that nobody needs are deleted", SETS, SETS - HISTORY),
]


def processor_seconds():
    """Returns how long processors have worked for the runs that have ended."""
    used = resource.getrusage(resource.RUSAGE_CHILDREN)
    return used.ru_utime + used.ru_stime


def run(program, way, pods, plans, commands, limit):
    """Returns the processor's seconds that one run took. Ends the benchmark where it wrote something else than it is to."""
    words = [way, str(pods), str(plans)]
    before = processor_seconds()
    try:
        done = subprocess.run([program, "plan", *words], stdin=subprocess.DEVNULL, capture_output=True, text=True, timeout=limit)
    except subprocess.TimeoutExpired:
        sys.exit(f"{program} {' '.join(words)} took more than {limit} seconds")
    seconds = processor_seconds() - before
    if done.returncode != 0:
        sys.exit(f"{program} {' '.join(words)} ended with status {done.returncode}: {done.stderr.strip()}")
    if done.stdout != f"{plans} plans, {plans * commands} commands\n":
        sys.exit(f"{program} {' '.join(words)} wrote: {done.stdout.strip()}")
    return seconds


def plans_of(pods, plans):
    """Returns how many plans are made for so many pods or sets."""
    return max(1, plans * FEW // max(pods, FEW))


def measure(program, asked):
    """Returns for each row the seconds of its plans, the best of several runs."""
    best = {}
    for _ in range(asked.runs):
        for way, _, pods, commands in ROWS:
            for plans in (0, plans_of(pods, asked.plans)):
                seconds = run(program, way, pods, plans, commands, asked.seconds)
                best[way, pods, plans] = min(best.get((way, pods, plans), seconds), seconds)
    return [best[way, pods, plans_of(pods, asked.plans)] - best[way, pods, 0] for way, _, pods, _ in ROWS]


def main():
    asked = shared.arguments(__doc__, "plans", most=10**6, default=1000, runs=5)
    program = shared.built(asked.program, "benchmarks", ["plan", "half", str(FEW), "2"])
    seconds = measure(program, asked)
    load = ", ".join(f"{number:.2f}" for number in os.getloadavg())
    print(f"best of {asked.runs} runs, {os.cpu_count()} processors, load average {load}")
    print("| Planned | Pods or sets | Commands | Microseconds a plan | Nanoseconds each |")
    print("|---|---|---|---|---|")
    for (_, name, pods, commands), spent in zip(ROWS, seconds):
        each = spent / plans_of(pods, asked.plans)
        print(f"| {name} | {pods:,} | {commands:,} | {each * 1e6:,.1f} | {each * 1e9 / pods:,.0f} |")


if __name__ == "__main__":
    main()
