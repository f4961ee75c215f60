#!/usr/bin/env python3
"""Asks a built program how it is used, and looks whether it names each command, and of each the options that docs/API.md has in its tables.

Words that ask no command are bad arguments whatever is said of them: standard error and the status say so, and standard output names the word
that is not understood and how the command is used. They say too which fault ended a command: standard input that cannot be read, standard output
that cannot be written, a port that another listens on, with its cause (refusals/run.py has the want of memory).
Usage: arguments.py [--program PATH]
"""
import argparse
import contextlib
import os
import pathlib
import re
import socket
import subprocess
import sys

ROOT = pathlib.Path(__file__).resolve().parent.parent
BUILT = "crates/kcp/out/kcp"
COMMANDS = ("replay", "simulate", "serve", "control", "all")
# Words, one of them no UTF-8, what is told how it is used (None: the program), and the word that is not understood.
TOLD = {
    "": (None, None),
    "help": (None, None),
    "--help": (None, None),
    "help serve": (None, "help"),
    "served --help": (None, "served"),
    "serve --port": ("serve", "--port"),
    "serve --prot 1": ("serve", "--prot"),
    "serve --port 1 --port 1": ("serve", "--port"),
    "serve --port 99999": ("serve", "99999"),
    "serve \udcff": (None, None),
    "control --workers 4": ("control", None),
    "all --workers 4 --requests 1": ("all", "--requests"),
    "replay now": ("replay", "now"),
}
SECONDS = 20
# What standard input is, and how it is open: of a folder nothing can be read, nor of what is open to be written.
NOTHING, FOLDER, WRITTEN = (os.devnull, os.O_RDONLY), (os.sep, os.O_RDONLY), (os.devnull, os.O_WRONLY)
KEPT, FULL = os.devnull, "/dev/full"
LINE = b"GET /api/v1/configmaps\n"
# Words, standard input (where it is bytes, a pipe with these), standard output, and the fault. TAKEN stands for a port that another listens on.
FAULTS = [
    ("replay", FOLDER, KEPT, "read"),
    ("replay", WRITTEN, KEPT, "read"),
    ("simulate", FOLDER, KEPT, "read"),
    ("all --port 0", FOLDER, KEPT, "read"),
    ("replay", LINE, FULL, "write"),
    ("simulate", b"request " + LINE, FULL, "write"),
    ("all --port 0", LINE, FULL, "write"),
    ("serve --port 0", NOTHING, FULL, "write"),
    ("serve --port TAKEN", NOTHING, KEPT, "listen"),
    ("all --port TAKEN", NOTHING, KEPT, "listen"),
]


def asked(program, words):
    """Returns what the program says on standard output and standard error, and its status."""
    ran = subprocess.run([program, *words.split()], stdin=subprocess.DEVNULL, capture_output=True, text=True, timeout=SECONDS)
    return ran.stdout, ran.stderr, ran.returncode


def options_of(page):
    """Returns the options of each command that has a table, the tables being in the order of the commands."""
    tables = re.findall(r"(?m)^\| Option \| Default \| Means \|\n\|[-|]+\|\n((?:\|.*\n)+)", page)
    return dict(zip(("serve", "control", "all"), ([*re.findall(r"(?m)^\| `(--\w+)", it)] for it in tables)))


def wrong_of(program, options):
    """Returns what is not as it has to be, a line for each words that were tried."""
    for words, (about, strange) in {**TOLD, **{f"{it} --help": (it, None) for it in COMMANDS}}.items():
        said, told, status = asked(program, words)
        named = COMMANDS if about is None else options.get(about, ())
        usage = said.removeprefix(f"not understood: {strange}\n\n") if strange else said
        lacks = [it for it in named if not re.search(rf"(?m)^  {re.escape(it)} ", usage)]
        more = set(re.findall(r"(?m)^  (--\w+) ", usage)) - set(named)
        is_right = usage.startswith(f"usage: kcp {about or 'COMMAND'}") and bool(strange) == (usage != said)
        if not is_right or lacks or more or (told, status) != ("kcp: bad arguments\n", 2):
            yield f"kcp {words}: status {status}, lacks {lacks}, has {sorted(more)}: {said!r} {told!r}"


@contextlib.contextmanager
def opened(source):
    """Gives what a program is to be run with to read a standard input."""
    if isinstance(source, bytes):
        yield {"input": source}
        return
    descriptor = os.open(*source)
    try:
        yield {"stdin": descriptor}
    finally:
        os.close(descriptor)


def ended(program, words, source, sink):
    """Returns the lines of standard error, but those that tell of its running, and the status of a program, or what it did in their place."""
    with opened(source) as given, open(sink, "wb") as written:
        try:
            ran = subprocess.run([program, *words.split()], **given, stdout=written, stderr=subprocess.PIPE, timeout=SECONDS)
        except subprocess.TimeoutExpired:
            return f"still runs after {SECONDS} s"
    lines = ran.stderr.decode("utf-8", "replace").splitlines(keepends=True)
    return lines[-2:] if lines[-1:] and lines[-1].startswith("kcp: port ") else lines[-1:], ran.returncode


def wrong_of_faults(program):
    """Returns which commands do not end as their fault has them to, a line for each."""
    with socket.create_server(("127.0.0.1", 0)) as taken:
        for words, source, sink, fault in FAULTS:
            words = words.replace("TAKEN", str(taken.getsockname()[1]))
            found = ended(program, words, source, sink)
            if found[0][:1] != [f"kcp: {fault}\n"] or found[1] != 1 or len(found[0]) != 1 + (fault == "listen"):
                yield f"kcp {words}, {source} to {sink}: {found}, not {fault}"


def wrong_of_no_input(program):
    """Returns what is wrong where a server with its controllers is given an input that is empty, a line at most: it says so, and is no fault."""
    found = ended(program, "all --port 0", b"", os.devnull)
    if found != (["kcp: all ended with its input, which was empty (serve and control read none)\n"], 0):
        yield f"kcp all, with no input: {found}"


def main():
    parser = argparse.ArgumentParser(description=__doc__.splitlines()[0])
    parser.add_argument("--program", default=BUILT)
    program = str((ROOT / parser.parse_args().program).resolve())
    options = options_of((ROOT / "docs" / "API.md").read_text(encoding="utf-8"))
    failed = [] if all(options.values()) and len(options) == 3 else ["docs/API.md lacks tables of options"]
    failed += wrong_of(program, options)
    failed += wrong_of_faults(program)
    failed += wrong_of_no_input(program)
    for line in failed:
        print(f"FAILED {line}")
    print(f"{len(TOLD) + len(COMMANDS) + len(FAULTS) + 1 - len(failed)} passed, {len(failed)} failed")
    sys.exit(1 if failed else 0)


if __name__ == "__main__":
    main()
