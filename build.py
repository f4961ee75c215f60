#!/usr/bin/env python3
"""Proves and builds the program kcp, from nothing or over what earlier runs left, with as many crates at once as there are processors and memory.

    build.py [--jobs N]     --jobs: use so many processors

It prints a line for each crate that is proved, with the time that is most likely left. The executable is crates/kcp/out/kcp. What a
crate that is not proved printed is shown at the end, and the status is 0 only where the program was built.
"""
import argparse
import os
import pathlib
import subprocess
import sys
import tempfile
import threading
import time

sys.dont_write_bytecode = True
ROOT = pathlib.Path(__file__).resolve().parent
sys.path.insert(0, str(ROOT / ".ci"))
import figures
import toolchain

PROGRAM = "kcp"
# What a crate takes of which no figure is known, in processor seconds.
SECONDS_OF_A_CRATE = 60


class Progress:
    """Says which crates are proved, and how long the others will take: all of them at the rate of those, or the longest chain of them, one of
    which waits for the other, each as many times slower than it was once as those were; whatever is longer."""

    def __init__(self, crates, program):
        known = figures.known_seconds()
        self.seconds = {it.name: known.get(it.name, (SECONDS_OF_A_CRATE, 0))[0] for it in crates}
        self.below = {it.name: [below.name for below in it.below()] for it in crates}
        self.last = known.get(program.name, (SECONDS_OF_A_CRATE, 0))[0]
        self.left, self.began, self.printing = set(self.seconds), time.monotonic(), threading.Lock()
        self.worked = self.took = 0

    def longest_chain(self):
        """Returns the seconds of the longest chain of crates that are left, and of the program, which waits for all."""
        longest = {}

        def until(name):
            if name not in longest:
                below = [until(it) for it in self.below[name] if it in self.left]
                longest[name] = self.seconds[name] + max(below, default=0)
            return longest[name]

        return max(map(until, self.left), default=0) + self.last

    def seconds_left(self):
        """Returns how many seconds all that is left will most likely take; none before anything was proved."""
        if not self.worked:
            return 0
        rest = sum(self.seconds[name] for name in self.left) + self.last
        return max((time.monotonic() - self.began) * rest, self.took * self.longest_chain()) / self.worked

    def ended(self, crate, what, seconds):
        with self.printing:
            self.left.discard(crate.name)
            self.worked += self.seconds[crate.name] if seconds else 0
            self.took += seconds
            left = self.seconds_left()
            soon = f"; about {left / 60:.0f} minutes left" if left else ""
            count = len(self.seconds) - len(self.left)
            print(f"[{count}/{len(self.seconds)}] {crate.name} {what}{f' in {seconds:.0f} s' if seconds else ''}{soon}", flush=True)


def proved(crate, jobs, progress, wrong):
    """Proves a library, unless it is proved as it stands, and returns whether it is."""
    if crate.is_built():
        progress.ended(crate, "is proved already", 0)
        return True
    began = time.monotonic()
    os.makedirs(f"{crate.folder}/out", exist_ok=True)
    with tempfile.TemporaryFile("w+", errors="replace") as crate.out:
        try:
            status = crate.build_rlib(["--jobs", str(jobs)], anew=False)
        except SystemExit:
            status = 1
        crate.out.seek(0)
        said = crate.out.read()
    if status:
        wrong.append(f"== {crate.name}\n{said}")
    progress.ended(crate, "NOT PROVED" if status else "proved", time.monotonic() - began)
    return not status


def task(crate, progress, wrong):
    """Returns the proof of a library as the toolchain's lanes take it: what it waits for, its work, and a call that does it."""
    waits = [it.name for it in crate.below()]

    def work(given, jobs):
        if not all(given[name] for name in waits):
            progress.ended(crate, "NOT PROVED, since a crate below it was not", 0)
            return False
        return proved(crate, jobs, progress, wrong)

    return waits, progress.seconds[crate.name], work


def link_program(jobs):
    """Proves the program itself, links it and runs it on no lines, and returns the status of that."""
    words = [sys.executable, "-B", str(ROOT / ".ci" / "rt.py"), "run", "--jobs", str(jobs), "--", "replay"]
    return subprocess.run(words, cwd=ROOT / "crates" / PROGRAM, stdin=subprocess.DEVNULL).returncode


def main():
    parser = argparse.ArgumentParser(description=__doc__.splitlines()[0])
    parser.add_argument("--jobs", type=int, help="how many processors to use")
    asked = parser.parse_args()
    rt, wrong = toolchain.load(), []
    rt.rtlib.guarded()
    program = next(it for it in rt.rtlib.crates_below(str(ROOT)) if it.name == PROGRAM)
    libraries = program.below()
    held = rt.rtlib.lock([*libraries, program])
    progress = Progress(libraries, program)
    tasks = {it.name: (waits, seconds, rt.need(it), call) for it in libraries for waits, seconds, call in [task(it, progress, wrong)]}
    if asked.jobs:
        rt.processors = lambda: asked.jobs
    given = rt.in_lanes(tasks)
    for it in held:
        os.close(it)
    if not all(given.values()):
        print("\n".join(wrong))
        sys.exit(1)
    status = link_program(min(4, asked.jobs or rt.processors()))
    print(f"{f'crates/{PROGRAM}/out/{PROGRAM} is proved and built' if not status else 'the program was not built'}, after {(time.monotonic() - progress.began) / 60:.0f} minutes")
    sys.exit(status)


if __name__ == "__main__":
    main()
