#!/usr/bin/env python3
"""Tries the negative tests: the wrong code in crates/NAME/must-fail and crates/NAME/wrong-code, which the prover has to refuse.

    wrong_code.py [--jobs N] [NAME..]    tries the pieces of these crates, or of all that have changed since, and keeps in tried.txt what was refused
    wrong_code.py NAME/PIECE..           tries these pieces, and keeps nothing
    wrong_code.py --within SECONDS       what the gate does: tries all of must-fail, and within that time those of crates that have changed, then one
                                         piece of each other crate, by turns; says what was not tried, and keeps nothing
                  --at-most SECONDS      fails where not all of must-fail were tried after so many seconds
    wrong_code.py --check                tries nothing, and says in a few seconds what has changed since it was tried
    wrong_code.py --compile [NAME..]     tries nothing, and says in some minutes which pieces the compiler does not take
    wrong_code.py --plan                 says how many pieces can be tried beside others

The crates below have to be built: by `rt all check`, `python3 build.py` or `rt ci`. negative/pieces.py says what a piece is,
negative/trials.py how they are tried, and negative/tried.py what tried.txt has. `rt must-fail` of the toolchain tries those in must-fail
too, each alone. A crate that is named is tried even where its line of tried.txt still stands.

The status is 1 where a piece was not refused, or, with --check, no longer applies to the text, or, with --compile, is not taken by the compiler, or,
with --at-most, there was no time for one of must-fail, and nowhere else.
"""
import argparse
import collections
import concurrent.futures
import dataclasses
import hashlib
import os
import subprocess
import sys
import time

sys.dont_write_bytecode = True
from negative import pieces, tried

libraries = pieces.libraries
# The folder of the pieces that each gate tries.
MUST_FAIL = "must-fail"


def with_pieces(known):
    return [name for name in known if pieces.pieces(name)]


def check():
    """Says what was not tried since it changed, and which pieces no longer apply. Returns whether all do."""
    known, lines = libraries(), tried.read()
    named = with_pieces(known)
    stale = [(it, it.why_not_applied()) for name in named for it in pieces.pieces(name)]
    standing = [name for name in named if tried.is_standing(name, known, lines)]
    count = sum(len(pieces.pieces(name)) for name in standing)
    print(f"negative tests: {count} of {len(standing)} crates were refused, and what they rest on stands")
    tell_changed([name for name in named if name not in standing], lines)
    for it, why in stale:
        if why:
            print(f"{it} no longer applies: {why}")
    return not any(why for _, why in stale)


def tell_changed(names, lines):
    """Prints which crates have changed since their pieces were tried, by the time of that."""
    by_age = collections.defaultdict(list)
    for name in names:
        by_age[tried.age(name, lines)].append(name)
    for age, of_age in by_age.items():
        print(f"not tried since something changed, but {age}: {', '.join(of_age)}" if age != "never" else f"never tried: {', '.join(of_age)}")


def plan():
    """Says how many pieces can be tried beside others, and in how many checks."""
    joint, alone, checks = 0, 0, 0
    for name in with_pieces(libraries()):
        functions = [pieces.function_of(it) for it in pieces.pieces(name)]
        count = collections.Counter(it for it in functions if it)
        joint, alone, checks = joint + count.total(), alone + functions.count(None), checks + max(count.values(), default=0)
    print(f"{joint} pieces can be tried beside others, in {checks} checks where no function waits for another; {alone} alone")
    return True


def turned(found, seed):
    """Returns things in an order that another seed makes another."""
    return sorted(found, key=lambda it: hashlib.sha256(f"{seed} {it}".encode()).digest())


def work_within():
    """Returns for each crate the pieces that the gate tries whatever time it takes, those that it tries while there is time, of crates that have
    changed first, and which these are.

    The one piece of a crate that has not changed is tried beside those of its must-fail, if it has some: each check loads the libraries below.
    """
    known, lines = libraries(), tried.read()
    seed = subprocess.run(["git", "rev-parse", "HEAD"], cwd=pieces.ROOT, capture_output=True, text=True).stdout.strip()
    changed = [name for name in with_pieces(known) if not tried.is_standing(name, known, lines)]
    others = turned([name for name in with_pieces(known) if name not in changed], seed)
    first = {name: pieces.pieces(name, [MUST_FAIL]) for name in known}
    rest = {name: pieces.pieces(name, ["wrong-code"]) for name in known}
    # What was refused before and is not any more comes first, and what was never tried last; of each, another crate with each commit.
    work = [(name, rest[name]) for name in sorted(turned(changed, seed), key=lambda it: it not in lines)]
    for name in others:
        one = turned(rest[name], seed)[:1]
        if first[name]:
            first[name] += one
        else:
            work.append((name, one))
    return [(name, found) for name, found in first.items() if found], [(name, found) for name, found in work if found], set(changed)


def try_all(work, changed, jobs, until, is_kept):
    """Tries pieces crate by crate, several crates side by side, and returns what became of each."""
    from negative.prover import Prover
    from negative.trials import Outcome, Trial

    prover, known, verdicts = Prover(), libraries(), []

    def of_crate(name, found):
        return Trial(prover, name, found, until, lambda text: print(text, flush=True)).run(name in changed)

    with concurrent.futures.ThreadPoolExecutor(jobs) as pool:
        runs = {pool.submit(of_crate, name, found): name for name, found in work}
        for run in concurrent.futures.as_completed(runs):
            verdicts += run.result()
            if is_kept and all(it.outcome is Outcome.REFUSED for it in run.result()):
                tried.note(runs[run], known, len(run.result()))
    return verdicts


def tell(verdicts):
    """Prints what was not refused and what was not tried, and returns whether nothing was not refused."""
    from negative.trials import Outcome

    lines, of = tried.read(), collections.defaultdict(list)
    for it in verdicts:
        of[it.outcome].append(it)
    left = collections.Counter(it.piece.crate for it in of[Outcome.NOT_TRIED])
    if left:
        print("not tried, and when they were tried last:", ", ".join(f"{name} {count} ({tried.age(name, lines)})" for name, count in left.items()))
    wrong = of[Outcome.NOT_REFUSED] + of[Outcome.BAD] + of[Outcome.TOO_LATE]
    for it in wrong:
        print(f"{it.piece}: {it.outcome.value}: {it.reason}")
    print(f"{len(of[Outcome.REFUSED])} refused, {left.total()} not tried")
    print(f"{len(of[Outcome.REFUSED])} passed, {len(wrong)} failed")
    return not wrong


def main():
    parser = argparse.ArgumentParser(description=__doc__.splitlines()[0])
    parser.add_argument("--check", action="store_true", help="try nothing, and say what has changed")
    parser.add_argument("--compile", action="store_true", help="try nothing, and say which pieces the compiler does not take")
    parser.add_argument("--plan", action="store_true", help="try nothing, and say how many checks it takes")
    parser.add_argument("--within", type=float, metavar="SECONDS", help="try what the gate tries, within this time")
    parser.add_argument("--at-most", type=float, metavar="SECONDS", help="with --within: fail where not all of must-fail were tried after this time")
    parser.add_argument("--jobs", type=int, default=len(os.sched_getaffinity(0)), help="how many crates to try side by side")
    parser.add_argument("names", nargs="*", metavar="NAME", help="only these crates, or pieces as NAME/PIECE")
    asked = parser.parse_args()
    if asked.check or asked.plan:
        sys.exit(0 if (check() if asked.check else plan()) else 1)
    known = libraries()
    if any("/" in name for name in asked.names):
        sys.exit(0 if tell(named(asked, parser)) else 1)
    unknown = [name for name in asked.names if name not in known]
    if unknown:
        parser.error(f"crates.txt names no {', '.join(unknown)}")
    if asked.compile:
        sys.exit(0 if compile_all(asked.names or with_pieces(known), asked.jobs) else 1)
    sys.exit(0 if tell(within(asked) if asked.within is not None else kept(asked, known)) else 1)


def compile_all(names, jobs):
    """Says which pieces of these crates the compiler does not take, and returns whether it takes all."""
    from negative import compiling
    from negative.prover import Prover

    prover = Prover()
    with concurrent.futures.ThreadPoolExecutor(jobs) as pool:
        wrong = [it for found in pool.map(lambda name: compiling.not_taken(prover, name, pieces.pieces(name)), names) for it in found]
    for it, why in wrong:
        print(f"{it} is not taken by the compiler: {why}")
    count = sum(len(pieces.pieces(name)) for name in names)
    print(f"{count - len(wrong)} of {count} pieces are taken by the compiler")
    return not wrong


def named(asked, parser):
    """Tries the pieces that are named, and returns what became of each."""
    found = {str(it): it for name in with_pieces(libraries()) for it in pieces.pieces(name)}
    unknown = [name for name in asked.names if name not in found]
    if unknown:
        parser.error(f"there is no piece {', '.join(unknown)}")
    work = collections.defaultdict(list)
    for name in asked.names:
        work[found[name].crate].append(found[name])
    return try_all(list(work.items()), set(), asked.jobs, None, False)


def within(asked):
    """Tries what the gate tries, and returns what became of each piece."""
    began, (first, rest, changed) = time.monotonic(), work_within()
    until = None if asked.at_most is None else began + asked.at_most
    owed = [too_late(it) for it in try_all(first, changed, asked.jobs, until, False)]
    return owed + try_all(rest, changed, asked.jobs, began + asked.within, False)


def too_late(verdict):
    """Returns what became of a piece: that there was no time for one that has to be tried is a fault."""
    from negative.trials import NO_TIME, Outcome

    is_late = verdict.piece.file.parent.name == MUST_FAIL and verdict.outcome is Outcome.NOT_TRIED and verdict.reason == NO_TIME
    return dataclasses.replace(verdict, outcome=Outcome.TOO_LATE) if is_late else verdict


def kept(asked, known):
    """Tries the crates that are named, or that have changed, notes which were refused, and returns what became of each piece."""
    lines = tried.read()
    changed = asked.names or [name for name in with_pieces(known) if not tried.is_standing(name, known, lines)]
    work = sorted(((name, pieces.pieces(name)) for name in changed), key=lambda it: -len(it[1]))
    return try_all(work, set(changed), asked.jobs, None, True)


if __name__ == "__main__":
    main()
