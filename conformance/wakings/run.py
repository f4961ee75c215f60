#!/usr/bin/env python3
"""Takes away, one after another, what ends each wait of the running program, and looks whether the tests that show it fail then.

No contract says that a thread gets on, so no prover refuses code whose threads sleep for ever: a test has to, and this shows that it does. Each
file NAME.edit beside this one takes one waking away (wakings.py says what such a file has). The tree is copied, without what was built, the edit is made in
the copy, and what has to fail is built without proof and run: a test that passes all the same is named.

Usage: run.py [--plain | --check | --list] [WORD ..]      WORD: only wakings whose names have one of these
  --plain   takes nothing away: then all these tests have to pass
  --check   runs nothing, and says in a second whether each edit still applies
  --list    runs nothing, and tells what waits, what ends that, within what time, and what fails without
"""
import argparse
import pathlib
import shutil
import subprocess
import sys
import tempfile
import time

sys.dont_write_bytecode = True
import unproved
import wakings

ROOT = pathlib.Path(__file__).resolve().parent.parent.parent
LEFT_OUT = shutil.ignore_patterns("out", ".git", "__pycache__")
SCRIPT_SECONDS = 1800


def tests_that_pass(tree, tests):
    """Returns which of the named tests of a tree pass."""
    passed = []
    for crate, names in tests:
        ok, said = unproved.ran_tests(tree, crate)
        passed += [f"{crate} {name}" for name in names if name in ok]
        print(f"    {crate}: {len(ok)} passed, {said.rstrip().rpartition(chr(10))[2]}", flush=True)
    return passed


def scripts_that_pass(tree, scripts, room):
    """Returns which of the scripts pass on the program of a tree."""
    if not scripts:
        return []
    program, passed = room / "kcp", []
    unproved.program(tree, program)
    for script, *words in scripts:
        run = subprocess.run([sys.executable, tree / script, "--program", program, *words], capture_output=True, text=True, errors="replace", timeout=SCRIPT_SECONDS)
        print("".join(f"    {line[:300]}\n" for line in (run.stdout + run.stderr).splitlines()), end="", flush=True)
        passed += [" ".join([script, *words])] if run.returncode == 0 else []
    return passed


def tried(waking):
    """Takes a waking away, and returns what passes all the same."""
    with tempfile.TemporaryDirectory(prefix="wakings-") as room:
        room = pathlib.Path(room)
        tree = shutil.copytree(ROOT, room / "tree", ignore=LEFT_OUT)
        waking.take_away(tree)
        return tests_that_pass(tree, waking.tests) + scripts_that_pass(tree, waking.scripts, room)


def does_fail(waking):
    """Tries a waking, says what came of it, and returns whether all failed that has to."""
    began = time.monotonic()
    try:
        passed = tried(waking)
    except (unproved.Unbuilt, ValueError, subprocess.TimeoutExpired) as fault:
        print(f"{waking.name}: NOT TRIED: {fault}", flush=True)
        return False
    told = f"STILL PASSES: {'; '.join(passed)}" if passed else "fails, as it has to"
    print(f"{waking.name}: {told}, {time.monotonic() - began:.0f} s", flush=True)
    return not passed


def does_pass(asked):
    """Runs what the wakings name on the tree as it is, and returns whether all passes."""
    wanted = {}
    for crate, names in [it for waking in asked for it in waking.tests]:
        wanted.setdefault(crate, set()).update(names)
    scripts = list(dict.fromkeys(tuple(it) for waking in asked for it in waking.scripts))
    with tempfile.TemporaryDirectory(prefix="wakings-") as room:
        room = pathlib.Path(room)
        tree = shutil.copytree(ROOT, room / "tree", ignore=LEFT_OUT)
        passed = tests_that_pass(tree, [(crate, sorted(names)) for crate, names in wanted.items()]) + scripts_that_pass(tree, scripts, room)
    named = [f"{crate} {name}" for crate, names in wanted.items() for name in names] + [" ".join(it) for it in scripts]
    for it in named:
        print(f"{it}: {'passes' if it in passed else 'FAILS'}")
    return len(passed) == len(named)


def does_apply(waking):
    """Says where an edit no longer applies, and returns whether it does."""
    if why := waking.why_not_applied():
        print(f"{waking.name} no longer applies: {why}")
    return not why


def listed(asked):
    """Returns what waits, each with what ends that, within what time, and what has to fail where it is taken away."""
    lines = []
    for waking in asked:
        shown = [f"{crate} {' '.join(names)}" for crate, names in waking.tests] + [" ".join(it) for it in waking.scripts]
        shown += [f"refused: {it}" for it in waking.refused]
        within = [f"    within     {waking.within}"] if waking.within else []
        lines += [f"{waking.waits}", f"    ended by   {waking.ended_by}", *within, f"    shown by   {'; '.join(shown)}   ({waking.name})"]
    return "\n".join(lines)


def main():
    parser = argparse.ArgumentParser(description=__doc__.splitlines()[0])
    parser.add_argument("--plain", action="store_true", help="take nothing away")
    parser.add_argument("--check", action="store_true", help="run nothing")
    parser.add_argument("--list", action="store_true", help="run nothing, and tell what waits")
    parser.add_argument("words", nargs="*", metavar="WORD")
    given = parser.parse_args()
    asked = wakings.all_wakings(given.words)
    if given.list:
        print(listed(sorted(asked, key=lambda it: it.waits)))
        return
    if given.plain:
        sys.exit(0 if asked and does_pass(asked) else 1)
    went_well = [(does_apply if given.check else does_fail)(it) for it in asked]
    print(f"{sum(went_well)} passed, {len(went_well) - sum(went_well)} failed")
    sys.exit(0 if asked and all(went_well) else 1)


if __name__ == "__main__":
    main()
