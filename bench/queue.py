#!/usr/bin/env python3
"""Measures the work queue: adds, gets and dones of keys, in operations a second.

One million keys, if nothing else is asked for, are added, handed out and taken back, over 100,000 keys: all are added in
turn, then handed out and taken back one after another, and so on from the first. This is done through the queue that
controllers use, and, to compare with, through a set and a deque that keep none of its rules. Each run is a process of
its own, and each figure the best of several, less the time of a run that makes the keys and adds none. What a run
writes is checked.

Usage: queue.py [--program PATH] [--thousands N] [--runs N] [--seconds N]
  --program PATH   an executable that is built; without it `rt run -- queue queue 1` in crates/benchmarks proves and builds one first
  --thousands N    how many thousand keys are added, 1000 if left out
  --runs N         runs of each kind, of which the best counts, 5 if left out
  --seconds N      the longest that one run may take, 120 if left out
It uses no network, and writes no files but those of the build.
"""
import os
import subprocess
import sys
import time

import shared

# An add, a get and a done.
OPERATIONS = 3

WAYS = [("queue", "the queue"), ("plain", "a plain set and deque")]


def run(program, way, thousands, limit):
    """Returns the seconds that one run took. Ends the benchmark where it wrote something else than it is to."""
    began = time.perf_counter()
    try:
        done = subprocess.run(
            [program, "queue", way, str(thousands)], stdin=subprocess.DEVNULL, capture_output=True, text=True, timeout=limit
        )
    except subprocess.TimeoutExpired:
        sys.exit(f"{program} {way} {thousands} took more than {limit} seconds")
    seconds = time.perf_counter() - began
    if done.returncode != 0:
        sys.exit(f"{program} {way} {thousands} ended with status {done.returncode}: {done.stderr.strip()}")
    if done.stdout != f"{thousands * 1000} keys handed out\n":
        sys.exit(f"{program} {way} {thousands} wrote: {done.stdout.strip()}")
    return seconds


def measure(program, asked):
    """Returns for each way the seconds of the keys that are added, handed out and taken back, the best of several runs."""
    best = {(way, thousands): float("inf") for way, _ in WAYS for thousands in (0, asked.thousands)}
    for _ in range(asked.runs):
        for way, thousands in best:
            best[way, thousands] = min(best[way, thousands], run(program, way, thousands, asked.seconds))
    return {way: best[way, asked.thousands] - best[way, 0] for way, _ in WAYS}


def main():
    asked = shared.arguments(__doc__, "thousands", most=2**32 - 1, default=1000, runs=5)
    seconds = measure(shared.built(asked.program, "benchmarks", ["queue", "queue", "1"]), asked)
    count = asked.thousands * 1000
    print(f"{count} adds, gets and dones over 100000 keys, best of {asked.runs} runs, {os.cpu_count()} processors")
    print("| Through | Operations a second | Seconds |")
    print("|---|---|---|")
    for way, name in WAYS:
        print(f"| {name} | {shared.rate(OPERATIONS * count, seconds[way])} | {seconds[way]:.3f} |")


if __name__ == "__main__":
    main()
