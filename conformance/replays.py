#!/usr/bin/env python3
"""Runs the program on each case and compares what it writes.

A case is a pair of files in cases/: NAME.replay has the bytes of standard input of `kcp replay`, NAME.expect those of its
standard output (simulate/run.py runs cases of `kcp simulate` likewise). The program is built from the sources by `rt try`,
which takes seconds, proves nothing, and lets a program write a mebibyte at most: cases that write more are left out, and
named. `--program PATH` runs all on one that is built already.

A case of many or of long lines is written in short: NAME.replay.short and NAME.expect.short. Each of their lines is a number, a
space, and a line that is meant so many times, for which Python's `%` fills in `number`, from 1 on over the whole file, `revision`,
one more than that, and `blank`, which is empty: `%(blank)1000s` is a thousand blanks.
What the names of cases begin with, or have:

    paths, methods, lines        paths- routes- methods- lines-of- order-of-path-method-query-body
    queries                      query-members queries- limits- revisions-of-bad-form watch-revisions-
    names, moments, uids         names- namespaces- labels- moment- moments- uids- generate
    bodies, how they are read    bodies- nulls- numbers- nesting- keys-that-come-twice of-another-type api-version-
    checks                       check-of- order-of-checks a-selector-stays
    creates, updates, patches    create what-the-server-sets update patches- status generations
    deletes and finalizers       delete preconditions- policies- options- finalizers- orphan- foreground- background-
    lists, pages, selectors      list exact-list limit page token selector
    watches, bookmarks, streams  watch bookmark stream initial-events frames
    windows and compactions      compaction window

Usage: replays.py [--program PATH] [WORD]      WORD: only cases whose name has it
"""
import argparse
import dataclasses
import pathlib
import subprocess
import sys
import tempfile

HERE = pathlib.Path(__file__).resolve().parent
PROGRAM = HERE.parent / "crates" / "kcp"
SECONDS = 60
LONGEST_TRIED = 1_048_576


def whole(short):
    """Returns the bytes that a file in short means."""
    lines, number = [], 0
    for line in short.decode().splitlines():
        count, text = line.split(" ", 1)
        for number in range(number + 1, number + 1 + int(count)):
            lines.append(text % {"number": number, "revision": number + 1, "blank": ""} + "\n")
    return "".join(lines).encode()


@dataclasses.dataclass
class Case:
    """What is read, and what is to be written."""

    name: str
    given: bytes
    wanted: bytes


def cases(folder, command, word):
    """Returns the cases of a command in a folder whose names have a word, in order."""
    names = sorted({path.name.split(".")[0] for path in folder.iterdir()})
    return [Case(name, read(folder, name, command), read(folder, name, "expect")) for name in names if word in name]


def read(folder, name, end):
    """Returns the bytes of a file of a case."""
    path = folder / f"{name}.{end}"
    return path.read_bytes() if path.exists() else whole((folder / f"{name}.{end}.short").read_bytes())


def by_program(program, command, asked):
    """Returns the names of the cases that a built program fails."""
    failed = []
    for case in asked:
        run = subprocess.run([program, command], input=case.given, capture_output=True, timeout=SECONDS)
        if run.stdout != case.wanted or run.returncode != 0:
            failed.append(case.name)
            show(case.name, case.wanted, run.stdout, run.returncode)
    return failed


def show(name, wanted, written, code):
    """Returns the first line that differs."""
    print(f"FAILED {name} (exit {code})")
    for number, (want, got) in enumerate(zip(wanted.split(b"\n"), written.split(b"\n")), 1):
        if want != got:
            print(f"  line {number}\n    wanted  {want[:400]!r}\n    written {got[:400]!r}")
            return
    print(f"  wanted {len(wanted)} bytes, written {len(written)}")


def by_try(command, asked):
    """Returns the names of the cases that the program fails as `rt try` builds it."""
    with tempfile.TemporaryDirectory() as folder:
        for case in asked:
            (pathlib.Path(folder) / case.name).write_bytes(case.given)
            (pathlib.Path(folder) / f"{case.name}.stdout").write_bytes(case.wanted)
        words = ["rt", "try", "--seconds", str(SECONDS), "--cases", folder, "--", command]
        run = subprocess.run(words, cwd=PROGRAM, capture_output=True, text=True, errors="replace")
        said = run.stdout + run.stderr
        passed = {line.split()[0][len("case="):] for line in said.splitlines() if has_passed(line.split())}
        failed = [case.name for case in asked if case.name not in passed]
        if failed or run.returncode != 0:
            print(said[-20000:])
        return failed if failed or run.returncode == 0 else [case.name for case in asked]


def has_passed(words):
    """Returns whether the words of a line of `rt try --cases` say that a case ended well, with the output that is wanted."""
    return words[:1] != [] and words[0].startswith("case=") and {"run=ended", "status=0", "output=expected"} <= set(words)


def judge(program, command, asked):
    """Runs the program on these cases, says how many passed, and ends with a status that says whether all did. Without a program that is
    built, the cases that write more than `rt try` lets them are left out."""
    if not program:
        long = [case.name for case in asked if len(case.wanted) > LONGEST_TRIED]
        asked = [case for case in asked if case.name not in long]
        print("".join(f"left out, for --program: {name}\n" for name in long), end="")
    failed = by_program(program, command, asked) if program else by_try(command, asked)
    print(f"{len(asked) - len(failed)} passed, {len(failed)} failed")
    sys.exit(1 if failed or not asked else 0)


def main():
    parser = argparse.ArgumentParser(description=__doc__.splitlines()[0])
    parser.add_argument("--program")
    parser.add_argument("word", nargs="?", default="")
    asked = parser.parse_args()
    judge(asked.program, "replay", cases(HERE / "cases", "replay", asked.word))


if __name__ == "__main__":
    main()
