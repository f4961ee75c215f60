#!/usr/bin/env python3
"""Has `kcp replay` answer worked examples while the n-th growth of its memory is refused, for each n until none is.

`kcp simulate` answers the one whose window is small.

A small library, refusing.c, which `cc` builds here, refuses that growth in the place of the C library. Each line then gets the reply that is
wanted, or the constant 503; one that got 503 is sent again, and gets its reply. Where there was no memory to begin or to read a line, the
program ends with status 1 and says so, and all that it wrote before is right.
Usage: run.py --program PATH [--jobs N] [WORD]      WORD: only cases whose name has it
"""
import argparse
import concurrent.futures
import os
import pathlib
import subprocess
import sys
import tempfile

sys.dont_write_bytecode = True
HERE = pathlib.Path(__file__).resolve().parent
sys.path.insert(0, str(HERE.parent))
import preloading
import replays

NO_MEMORY = (
    b'503 {"apiVersion":"v1","code":503,"kind":"Status","message":"no memory","metadata":{},"reason":"ServiceUnavailable","status":"Failure"}\n'
)
FAULT = b"kcp: no memory\n"
WATCH = b"200 watch "
# For each kind of request and of what is kept: creates, lists, updates by version, names that are made and that are taken, finalizers, selectors,
# frames of watches, compactions, pages with writes between, patches; and a window that is full.
CASES = {
    "replay": [
        "first-create",
        "empty-list",
        "second-update-conflicts",
        "an-update-that-changes-nothing-is-no-write",
        "generated-names",
        "a-generated-name-that-is-taken",
        "finalizers-hold-an-object-and-none-is-added",
        "selectors-of-an-object-without-labels",
        "a-watch-of-an-object-that-leaves-and-comes-back",
        "compactions-move-the-floor",
        "pages-are-of-one-list",
        "a-page-after-a-compaction-is-gone",
        "patches-of-deployments",
    ],
    "simulate": ["a-window-of-four-keeps-four-of-six-changes"],
}
FOLDERS = {"replay": HERE.parent / "cases", "simulate": HERE.parent / "simulate" / "cases"}
UNANSWERED = (b"AT ", b"config ")


class Wrong(Exception):
    """What was written is not what has to be."""


def has_reply(line):
    """Returns whether a line is answered by any lines."""
    return bool(line) and not line.removeprefix(b"request ").startswith(UNANSWERED)


def next_reply(lines):
    """Returns the lines of one reply, of a watch with its frames."""
    first = lines.readline()
    frames = int(first[len(WATCH) :]) if first.startswith(WATCH) else 0
    return first + b"".join(lines.readline() for _ in range(frames))


class Wanted:
    """The lines of a case, each with the reply that it is to get."""

    def __init__(self, case):
        with tempfile.TemporaryFile() as replies:
            replies.write(case.wanted)
            replies.seek(0)
            self.lines = [(line, next_reply(replies) if has_reply(line) else b"") for line in case.given.split(b"\n")]


class Run:
    """One run of the program, in which one growth is refused."""

    def __init__(self, program, command, library, growth):
        told, tells = os.pipe()
        settings = {**os.environ, "LD_PRELOAD": str(library), "REFUSED_GROWTH": str(growth), "REFUSED_TOLD": str(tells)}
        pipes = {"stdin": subprocess.PIPE, "stdout": subprocess.PIPE, "stderr": subprocess.PIPE}
        self.started = subprocess.Popen([program, command], env=settings, pass_fds=[tells], **pipes)
        os.close(tells)
        self.told, self.refusals = told, 0

    def ask(self, line):
        """Sends a line and returns its reply, none where the program has ended."""
        try:
            self.started.stdin.write(line + b"\n")
            self.started.stdin.flush()
        except BrokenPipeError:
            return b""
        return next_reply(self.started.stdout) if has_reply(line) else b""

    def answer(self, line, wanted):
        """Has a line answered, once more where there was no memory for it, and returns whether the program went on."""
        reply = self.ask(line)
        if reply == NO_MEMORY:
            self.refusals += 1
            reply = self.ask(line)
        if wanted and not reply:
            return False
        if reply != wanted:
            raise Wrong(f"{line[:80]!r} was answered {reply[:200]!r}, not {wanted[:200]!r}")
        return True

    def end(self, went_on):
        """Ends the run, checks how it ended, and returns whether a growth was refused in it."""
        rest, said = self.started.communicate()
        with os.fdopen(self.told, "rb") as told:
            was_refused = bool(told.read())
        if rest:
            raise Wrong(f"{rest[:200]!r} was written beside the replies")
        status = self.started.returncode
        if went_on and status == 0 and not said:
            return was_refused
        if status == 1 and said == FAULT and was_refused:
            return True
        raise Wrong(f"it ended with status {status} and said {said[:200]!r}")


def refused(program, command, library, wanted, growth):
    """Runs a case of a command with one growth refused; returns whether there was one, and how many lines were answered 503."""
    run = Run(program, command, library, growth)
    try:
        went_on = all(run.answer(line, reply) for line, reply in wanted.lines)
        return run.end(went_on), run.refusals
    except Wrong as fault:
        raise Wrong(f"growth {growth}: {fault}") from None
    finally:
        run.started.kill()
        run.started.wait()


def run_case(program, command, library, case):
    """Refuses each growth of a case of a command in turn, and returns how many there were, and how many lines were answered 503."""
    wanted, growth, told = Wanted(case), 1, 0
    while True:
        was_refused, lines = refused(program, command, library, wanted, growth)
        if not was_refused:
            return growth - 1, told
        told, growth = told + lines, growth + 1


def cases(word):
    """Returns each case whose name has a word, behind its command."""
    for command, folder in FOLDERS.items():
        for name in CASES[command]:
            if word in name:
                yield command, replays.Case(name, replays.read(folder, name, command), replays.read(folder, name, "expect"))


def told_of(case, future):
    """Says what came of a case, and returns whether it went well."""
    try:
        growths, lines = future.result()
    except Wrong as fault:
        print(f"FAILED {case.name}: {fault}", flush=True)
        return False
    print(f"{case.name}: {growths} growths refused, {lines} lines answered 503", flush=True)
    return growths > 0 and lines > 0


def main():
    parser = argparse.ArgumentParser(description=__doc__.splitlines()[0])
    parser.add_argument("--program", required=True)
    parser.add_argument("--jobs", type=int, default=len(os.sched_getaffinity(0)))
    parser.add_argument("word", nargs="?", default="")
    asked = parser.parse_args()
    program = str(pathlib.Path(asked.program).resolve())
    with tempfile.TemporaryDirectory() as room, concurrent.futures.ThreadPoolExecutor(asked.jobs) as pool:
        library = preloading.built(HERE / "refusing.c", room)
        futures = [(case, pool.submit(run_case, program, command, library, case)) for command, case in cases(asked.word)]
        went_well = [told_of(case, future) for case, future in futures]
    print(f"{sum(went_well)} passed, {len(went_well) - sum(went_well)} failed")
    sys.exit(0 if went_well and all(went_well) else 1)


if __name__ == "__main__":
    main()
