"""Runs the toolchain's `rt`, with each crate's stamp computed once: rt.py ci, and in a crate's folder rt.py check, rt.py test and the like.

    rt.py ci --edits-later    leaves the negative tests of must-fail to what follows (conformance/wrong_code.py), which tries them many at once

`rt ci` begins with the work that has the longest chain of other work behind it, which it measures in lines. Here it is measured in the seconds
that docs/GATE.md has of a crate, where it has some.
"""
import os
import shutil
import sys

import figures
import toolchain

# What a line takes where nothing else is known, in processor seconds.
SECONDS_OF_A_LINE = 0.15


def by_seconds(in_lanes):
    """Returns `rt`'s lanes for tasks whose work is said in lines, with it said in seconds."""
    known = figures.known_seconds()

    def seconds(key, lines):
        name, kind = key
        if name not in known or not lines:
            return lines * SECONDS_OF_A_LINE
        return known[name][kind == "tests"] or lines * SECONDS_OF_A_LINE

    def in_seconds(tasks):
        tasks = {key: (waits, seconds(key, lines), *rest) for key, (waits, lines, *rest) in tasks.items()}
        idle = without_work(tasks)
        given = in_lanes({key: it for key, it in tasks.items() if key not in idle})
        for key in idle:
            *_, call = tasks[key]
            given[key] = call(given, 1)
        return given

    return in_seconds


def without_work(tasks):
    """Returns those for which there is nothing to do and no other waits, as the tests of a crate that has none. In the lanes they would count as
    work that waits for a processor, and a proof beside them would get fewer jobs."""
    awaited = {it for waits, work, *_ in tasks.values() if work for it in waits}
    return [key for key, (_, work, *_) in tasks.items() if not work and key[1] != "proof" and key not in awaited]


def without_old_libraries(put_back):
    """Returns `rt`'s way to give back what the crates' folders had before the run, less the libraries of which the run has made others: the
    negative tests stand on those."""

    def put(root, aside, was_killed=False):
        for name in [] if was_killed else os.listdir(aside):
            if os.path.isdir(f"{root}/crates/{name}/out/rlib"):
                shutil.rmtree(f"{aside}/{name}/rlib", ignore_errors=True)
        put_back(root, aside, was_killed)

    return put


def without_edits(edits_of):
    """Returns `rt`'s search for the negative tests of a crate, which then finds only files that are none."""
    return lambda crate: ([], edits_of(crate)[1])


rt, words = toolchain.load(), sys.argv[1:]
rt.in_lanes = by_seconds(rt.in_lanes)
if "--edits-later" in words:
    words.remove("--edits-later")
    rt.edits_of = without_edits(rt.edits_of)
    if hasattr(rt, "put_back"):
        rt.put_back = without_old_libraries(rt.put_back)
sys.exit(rt.main(words))
