#!/usr/bin/env python3
"""Runs parts of the conformance cases by name, or lists them.

    run.py                   lists them, a line each
    run.py NAME ..           runs these, as the gate does
    run.py NAME WORD ..      runs one with words of its own: `--help`, `--seed 7`, or a word that the names of its cases have (`--` before one
                             that is the name of a part too)
    run.py first             what takes a second: whether negative tests, wakings and pages fit the text
    run.py program           all that the gate runs with the built program, in some six minutes

The programs are those that build.py and `rt ci` leave; --program, --follower and --controller name others. Where no kcp is built, or an older
one than the sources are, `replay` and `simulate` build one without proofs (`rt try`).
"""
import ast
import os
import signal
import subprocess
import sys

sys.dont_write_bytecode = True
import parts
from parts import PARTS, ROOT

OPTIONS = ("--program", "--follower", "--controller")


def split(words):
    """Returns the names with which the words begin, the programs that they name, and the other words."""
    names, given, own = [], {}, []
    words = list(words)
    while words:
        option, is_whole, path = words[0].partition("=")
        if option == "--":
            return names, given, own + words[1:]
        if option in OPTIONS and (is_whole or len(words) > 1):
            given[option] = os.path.abspath(path if is_whole else words.pop(1))
        elif not own and words[0] in (*PARTS, *parts.GROUPS):
            names += parts.GROUPS.get(words[0], [words[0]])
        else:
            own.append(words[0])
        words.pop(0)
    return names, given, own


def is_old(path):
    """Returns whether there is no such program, or a source that was changed after it was built."""
    program = ROOT / path
    return not program.exists() or any(it.stat().st_mtime > program.stat().st_mtime for it in ROOT.glob("crates/*/src/**/*.rt"))


def run(name, given, own):
    """Runs a part, and returns its status."""
    part = PARTS[name]
    if {"-h", "--help"} & set(own):
        print(ast.get_docstring(ast.parse((ROOT / part.script).read_text(encoding="utf-8"))))
        return 0
    old = [path for option, path in part.takes.items() if option not in given and is_old(path)]
    if old and name in parts.TRIED:
        part = parts.Part(part.script, {}, part.words, part.shows)
    elif missing := [path for path in old if not (ROOT / path).exists()]:
        print(f"{name}: there is no {missing[0]}: `python3 build.py` makes kcp, `rt run` in its folder another program", file=sys.stderr)
        return 1
    elif old:
        print(f"{name}: {old[0]} is older than the sources", file=sys.stderr)
    return subprocess.run([sys.executable, "-B", *part.command(given, own)]).returncode


def listed():
    """Returns the lines that tell what there is."""
    width = max(len(name) for name in PARTS)
    heads = (("Before the proofs, in a second (first)", parts.FIRST), ("With the built program (program)", parts.PROGRAM), ("By hand", parts.ASIDE), ("Measured (bench/README.md)", parts.MEASURES))
    return "\n".join(line for head, group in heads for line in ["", f"{head}:", *(f"  {name:{width}}  {part.shows}" for name, part in group.items())])


def main():
    signal.signal(signal.SIGPIPE, signal.SIG_DFL)
    names, given, own = split(sys.argv[1:])
    if not names:
        print(__doc__.rstrip("\n") + "\n" + listed())
        sys.exit(0 if own in ([], ["--list"], ["--help"]) else f"\nno part is named {own[0]}")
    if len(names) == 1:
        sys.exit(run(names[0], given, own))
    statuses = {}
    for name in names:
        print(f"== {name}", flush=True)
        statuses[name] = run(name, given, own)
    failed = [name for name, status in statuses.items() if status]
    print(f"{len(names) - len(failed)} of {len(names)} parts passed" + "".join(f"\nFAILED {name}" for name in failed))
    sys.exit(1 if failed else 0)


if __name__ == "__main__":
    main()
