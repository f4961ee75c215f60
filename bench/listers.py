#!/usr/bin/env python3
"""Measures an informer of 10,000 Pods whose map is read without waiting.

First publishes of one delta: microseconds each, of the processor's time, less the time of a run that takes in the Pods and
publishes nothing more. Then looks a second by 1, 4 and 16 threads, each of which reads the revision, and then such as get one Pod, while
another thread publishes a delta each millisecond, or as often as it can, for two seconds. Each figure is the median of several runs, and
beside it stand the least and the greatest. What a run writes is checked.

Usage: listers.py [--program PATH] [--thousands N] [--runs N] [--seconds N]
  --program PATH   an executable that is built; without it `rt run -- lister publish 1` in crates/benchmarks proves and builds one first
  --thousands N    how many thousand deltas are published, 20 if left out
  --runs N         runs of each kind, 5 if left out
  --seconds N      the longest that one run may take, 120 if left out
It uses no network, and writes no files but those of the build.
"""
import os
import re
import resource
import statistics
import subprocess
import sys

import shared

# How many threads look.
THREADS = [1, 4, 16]

# What a look does, and how the program names it.
LOOKS = {"reads the revision": "looks", "gets a Pod": "gets"}

PODS = 10_000


def spent():
    """Returns the seconds of the processor that all runs so far took."""
    used = resource.getrusage(resource.RUSAGE_CHILDREN)
    return used.ru_utime + used.ru_stime


def run(program, part, number, limit):
    """Returns what one run wrote, and the seconds of the processor that it took."""
    began = spent()
    try:
        done = subprocess.run([program, "lister", part, str(number)], stdin=subprocess.DEVNULL, capture_output=True, text=True, timeout=limit)
    except subprocess.TimeoutExpired:
        sys.exit(f"{program} {part} {number} took more than {limit} seconds")
    if done.returncode != 0:
        sys.exit(f"{program} {part} {number} ended with status {done.returncode}: {done.stderr.strip()}")
    return done.stdout, spent() - began


def publishes(program, times, limit):
    """Returns the seconds of the processor that a run took which publishes all Pods and then so many deltas."""
    written, seconds = run(program, "publish", times, limit)
    if written != f"{PODS + times} shifts\n":
        sys.exit(f"{program} publish {times} wrote: {written.strip()}")
    return seconds


def looks(program, part, threads, limit):
    """Returns how many looks and how many publishes a run saw in a second."""
    written, _ = run(program, part, threads, limit)
    counts = re.fullmatch(r"(\d+) looks and (\d+) publishes a second\n", written)
    if counts is None:
        sys.exit(f"{program} {part} {threads} wrote: {written.strip()}")
    return int(counts[1]), int(counts[2])


def main():
    asked = shared.arguments(__doc__, "thousands", most=4_000_000, default=20, runs=5)
    program = shared.built(asked.program, "benchmarks", ["lister", "publish", "1"])
    times = asked.thousands * 1000
    print(f"{PODS:,} Pods, {asked.runs} runs of each kind, {os.cpu_count()} processors, load {os.getloadavg()[0]:.1f}")
    taken_in = statistics.median(publishes(program, 0, asked.seconds) for _ in range(asked.runs))
    each = [(publishes(program, times, asked.seconds) - taken_in) * 1e6 / times for _ in range(asked.runs)]
    print(f"A publish of one delta: {statistics.median(each):.1f} microseconds, {min(each):.1f} to {max(each):.1f}")
    print("| A look | Threads that look | Looks a second, median | least | greatest | Publishes a second, median |")
    print("|---|---|---|---|---|---|")
    for what, part in LOOKS.items():
        for threads in THREADS:
            seen, published = zip(*(looks(program, part, threads, asked.seconds) for _ in range(asked.runs)))
            figures = f"{statistics.median(seen):,.0f} | {min(seen):,} | {max(seen):,} | {statistics.median(published):,.0f}"
            print(f"| {what} | {threads} | {figures} |", flush=True)
    print(f"Load in the end: {os.getloadavg()[0]:.1f}")


if __name__ == "__main__":
    main()
