#!/usr/bin/env python3
"""Lists the public functions with an error result that neither a test nor a program of the gate calls, directly or through others.

    untested.py [--check]

A function that is called nowhere may return its error always, and prove: no contract can say that memory is enough. So each is to be called once
where there is plenty of it. Functions are known by their names alone, so that one is taken for another of its name: what is listed is called by
nobody, what is not may still be. With --check the status is 1 where one is listed that KNOWN does not have, or KNOWN has one that is not.
"""
import argparse
import pathlib
import re
import sys

ROOT = pathlib.Path(__file__).resolve().parent.parent
# What the gate runs: cases of conformance ask these.
PROGRAMS = ("kcp", "watch_example", "controller_example", "benchmarks")
# Those that are called nowhere yet, and why.
KNOWN = {
    "controller_runtime::look_back": "reads the history of a board that only threads of a caller's own have",
    "controller_runtime::run_at_board": "as run_at, over a board that the caller keeps",
    "controller_runtime::run_workers": "as run_at, over maps that the caller keeps",
    "http_watch::serve_watch": "serves a watch alone; programs take what it is made of piece by piece",
    "shared_keyed_board::gather": "reads the history of a board that only threads of a caller's own have",
}
FUNCTION = re.compile(r"(?m)^( *)(pub |pub\(crate\) )?(?:const )?fn (\w+)")
CALLED = re.compile(r"\b(\w+)(?:::<[^>()]*>)?\(|::(\w+)\b")
SIGNATURE = re.compile(r"(.*?)(?:\n *(?:requires|ensures|where)\b|\{)", re.S)


def text_of(path):
    """Returns a source without its comments."""
    return re.sub(r"(?m)//.*$", "", path.read_text(encoding="utf-8"))


def called_in(text):
    """Returns the names that a text calls, or names by a path."""
    return {one or other for one, other in CALLED.findall(text)}


def functions_of(text):
    """Gives the name of each function of a source, whether it is public with an error result, and its text."""
    for found in FUNCTION.finditer(text):
        end = text.find(f"\n{found[1]}}}", found.end())
        own = text[found.end() : end if end >= 0 else len(text)]
        signature = SIGNATURE.match(own)
        fails = re.search(r"->[^{]*Result<", signature[1] if signature else own)
        yield found[3], found[2] == "pub " and bool(fails), own


def reached_from(names, calls):
    """Returns the names that these call, through others too."""
    reached, left = set(names), list(names)
    while left:
        more = calls.get(left.pop(), set()) - reached
        reached |= more
        left += more
    return reached


def untested():
    """Returns what is called nowhere, as crate::function, and how many public functions have an error result."""
    calls, public, begun = {}, [], set()
    for path in sorted((ROOT / "crates").glob("*/src/**/*.rt")):
        crate, text = path.relative_to(ROOT / "crates").parts[0], text_of(path)
        if crate.endswith("_tests") or crate in PROGRAMS:
            begun |= called_in(text)
        if crate.endswith("_tests"):
            continue
        for name, fails, own in functions_of(text):
            calls.setdefault(name, set()).update(called_in(own))
            if fails and crate not in PROGRAMS:
                public.append((crate, name))
    reached = reached_from(begun, calls)
    return sorted({f"{crate}::{name}" for crate, name in public if name not in reached}), len(public)


def main():
    parser = argparse.ArgumentParser(description=__doc__.splitlines()[0])
    parser.add_argument("--check", action="store_true")
    asked = parser.parse_args()
    listed, count = untested()
    for name in listed:
        print(f"{name}: {KNOWN.get(name, 'called nowhere')}")
    wrong = [f"FAILED {it}: no test or program calls it" for it in listed if it not in KNOWN]
    wrong += [f"FAILED {it}: it is called by now, or gone" for it in KNOWN if it not in listed]
    print(*wrong, sep="\n", end="\n" if wrong else "")
    print(f"{count - len(wrong)} passed, {len(wrong)} failed")
    sys.exit(1 if asked.check and wrong else 0)


if __name__ == "__main__":
    main()
