#!/usr/bin/env python3
"""Measures the decoder of frames: bytes a second, by the size of the pieces in which the frames come.

Each size is run on so many MiB and on twice as many, in a process of its own, and once on none, whose time is subtracted;
each is the best of several runs. Frames have 512 bytes; beside them stand frames of 1 MiB, and as many of 2 MiB, the
longest that there may be, fed byte by byte. The number of frames that came out is checked, so that a run that drops
some is not taken for a fast one. At the end stand the two things that the decoder is to keep: the slowest size is within
a factor of 50 of the fastest, and twice the bytes take about twice the time.

Usage: decoder.py [--program PATH] [--mebibytes N] [--runs N] [--seconds N]
  --program PATH   an executable that is built; without it `rt run` in crates/benchmarks proves and builds one first
  --mebibytes N    what is fed in each size, 16 if left out, 512 at most; the doubled runs take twice that
  --runs N         runs of each size, of which the best counts, 5 if left out
  --seconds N      the longest that one run may take, 120 if left out
It uses no network, and writes no file but what the build makes. Its status is 1 where a run fails, and 0 otherwise: it promises no speed.
"""
import os
import subprocess
import sys
import time

import shared

MEBIBYTE = 1 << 20
PIECES = [1, 64, 4096, 65536]
FRAME = 512
MOST_MEBIBYTES = 1024


def run(program, piece, mebibytes, frame, limit):
    """Returns the seconds that one run took."""
    command = [program, "decoder", str(piece), str(mebibytes), str(frame)]
    began = time.perf_counter()
    try:
        found = subprocess.run(command, stdin=subprocess.DEVNULL, stdout=subprocess.PIPE, timeout=limit)
    except subprocess.TimeoutExpired:
        sys.exit(f"{' '.join(command)} took more than {limit} seconds")
    seconds = time.perf_counter() - began
    if found.returncode != 0:
        sys.exit(f"{' '.join(command)} ended with status {found.returncode}")
    wanted = f"{mebibytes * MEBIBYTE // frame} frames\n".encode()
    if found.stdout != wanted:
        sys.exit(f"{' '.join(command)} wrote {found.stdout!r}, not {wanted!r}")
    return seconds


def best(program, piece, mebibytes, frame, asked):
    """Returns the shortest time of several runs, without what a run on nothing takes."""
    shortest = min(run(program, piece, mebibytes, frame, asked.seconds) for _ in range(asked.runs))
    nothing = min(run(program, piece, 0, frame, asked.seconds) for _ in range(asked.runs))
    return max(shortest - nothing, 1e-9)


def measure(program, asked):
    """Returns for each row its name, the bytes of a piece, the MiB, and the seconds for these and for twice as many."""
    rows = []
    for piece in PIECES:
        once, twice = (best(program, piece, times * asked.mebibytes, FRAME, asked) for times in (1, 2))
        rows.append((f"{FRAME} bytes", piece, asked.mebibytes, once, twice))
    once, twice = (best(program, 1, times * asked.mebibytes, times * MEBIBYTE, asked) for times in (1, 2))
    rows.append(("1 MiB, and as many of 2 MiB", 1, asked.mebibytes, once, twice))
    return rows


def main():
    asked = shared.arguments(__doc__, "mebibytes", most=MOST_MEBIBYTES // 2, default=16, runs=5)
    rows = measure(shared.built(asked.program, "benchmarks", ["decoder", "64", "1", str(FRAME)]), asked)
    print(f"best of {asked.runs} runs, {os.cpu_count()} processors")
    print("| Frames | Bytes of a piece | MiB | Seconds | Seconds for twice as many | Bytes a second |")
    print("|---|---|---|---|---|---|")
    for name, piece, mebibytes, once, twice in rows:
        rate = 2 * mebibytes * MEBIBYTE / twice
        print(f"| {name} | {piece:,} | {mebibytes} | {once:.3f} | {twice:.3f} | {rate:,.0f} |")
    rates = [2 * mebibytes * MEBIBYTE / twice for _, _, mebibytes, _, twice in rows]
    growths = [twice / once for _, _, _, once, twice in rows]
    print(f"fastest over slowest: {max(rates) / min(rates):.1f}")
    print(f"twice the bytes take {min(growths):.2f} to {max(growths):.2f} times as long")


if __name__ == "__main__":
    main()
