#!/usr/bin/env python3
"""Measures an indexed copy of 10,000 Pods of 100 ReplicaSets, as an informer has it: microseconds each, and peak memory.

Deltas that put a Pod, copies of the copy, look-ups of the Pods of a ReplicaSet (100 of them), the keys that a change of a Pod owes,
and publishes of one delta. Each run is a process of its own, and each figure the best of several, less the time of a run that takes
in the Pods and does nothing more. The time is the processor's.

Usage: informer.py [--program PATH] [--thousands N] [--runs N] [--seconds N]
  --program PATH   an executable that is built; without it `rt run -- informer owner 1` in crates/benchmarks proves and builds one first
  --thousands N    how many thousand times each is done; 10 if left out
  --runs N         runs of each kind, of which the best counts, 5 if left out
  --seconds N      the longest that one run may take, 120 if left out
It uses no network, and writes no files but those of the build.
"""
import os
import resource
import subprocess
import sys

import shared

PARTS = [
    ("put", "a Pod is put", 1),
    ("copy", "a copy is copied", 1),
    ("owner", "the 100 Pods of a ReplicaSet are looked up", 1),
    ("owed", "the keys that a change of a Pod owes", 1),
    ("publish", "a delta is published", 1),
]


def spent():
    """Returns the seconds of the processor that all runs so far took."""
    used = resource.getrusage(resource.RUSAGE_CHILDREN)
    return used.ru_utime + used.ru_stime


def run(program, part, times, limit):
    """Returns the seconds of the processor that one run took."""
    began = spent()
    try:
        done = subprocess.run([program, "informer", part, str(times)], stdin=subprocess.DEVNULL, capture_output=True, text=True, timeout=limit)
    except subprocess.TimeoutExpired:
        sys.exit(f"{program} {part} {times} took more than {limit} seconds")
    seconds = spent() - began
    if done.returncode != 0:
        sys.exit(f"{program} {part} {times} ended with status {done.returncode}: {done.stderr.strip()}")
    return seconds


def main():
    asked = shared.arguments(__doc__, "thousands", most=4_000_000, default=10, runs=5)
    program = shared.built(asked.program, "benchmarks", ["informer", "owner", "1"])
    print(f"10000 Pods of 100 ReplicaSets, best of {asked.runs} runs, {os.cpu_count()} processors")
    print("| What | So many | Microseconds each |")
    print("|---|---|---|")
    for part, name, share in PARTS:
        times = asked.thousands * 1000 // share
        best = {count: min(run(program, part, count, asked.seconds) for _ in range(asked.runs)) for count in (0, times)}
        print(f"| {name} | {times:,} | {(best[times] - best[0]) * 1e6 / times:,.2f} |")
    megabytes = resource.getrusage(resource.RUSAGE_CHILDREN).ru_maxrss * 1024 / 1e6
    print(f"Peak memory, of the Pods, one copy and the largest of these: {megabytes:,.0f} MB")


if __name__ == "__main__":
    main()
