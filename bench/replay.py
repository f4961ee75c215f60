#!/usr/bin/env python3
"""Measures `kcp replay` over stores of 100, 10,000 and 65,000 ConfigMaps: what each kind of line costs, and the memory.

A store is filled by creates, each of an object with about 100 bytes of data; the last create is followed by the lines that are
measured, all of one part: creates, each with the delete of what it made, so that the store stays as large as it is; gets, updates
and patches of objects all over the store; lists of a thousand, plain and by four requirements; and watches of the last thousand
changes. The time of a part is that of a run with it without that of a run that only fills the store, and the time of the fill is
without that of a run that is asked nothing; each is the best of several runs.

The time is the processor's, of the program and of what the system does for it; the program works on one processor. All inputs are
run in turn, again and again, so that each meets the machine's faster minutes and its slower ones. In the runs that are measured the
replies go nowhere; in one run before them the beginning of each line is checked, so that a program that refuses its requests is not
taken for a fast one.

Usage: replay.py [--program PATH] [--count N] [--runs N] [--seconds N]
  --program PATH   an executable that is built; without it `rt run -- replay` in crates/kcp proves and builds one first
  --count N        objects of the largest store, 65000 if left out; 262144 is the most that there may be
  --runs N         runs of each input, of which the best counts, 5 if left out
  --seconds N      the longest that one run may take, 120 if left out
It uses no network, and writes only to a temporary folder.
"""
import dataclasses
import math
import os
import pathlib
import subprocess
import sys
import tempfile
import time

import shared

COLLECTION = "/api/v1/namespaces/default/configmaps"

# The sizes of the smaller stores.
SMALLER = [100, 10_000]

# How many lines of a part that is about one object.
LINES = 100_000

# How many objects a list has, and changes a watch, where there are as many.
MANY = 1_000

# How many objects all lists of a part show, and how many changes all its watches do.
SHOWN = 1_000_000

# How the line of a frame begins.
FRAME = b'{"o'


def data(number, word):
    """Returns about 100 bytes of data."""
    return '{"key-%06d":"%s"}' % (number, (word * 100)[:84])


def places(count):
    """Returns objects all over a store, in an order that leaps."""
    return [n * 7_919 % count for n in range(LINES)]


def create(name, number):
    return f'POST {COLLECTION} {{"metadata":{{"name":"{name}"}},"data":{data(number, "before ")}}}'


def fills(count):
    return [create(f"map-{n:06}", n) for n in range(count)]


def creates(count):
    """Returns creates, each with the delete of what it made."""
    return [line for n in range(LINES) for line in (create(f"more-{n:06}", n), f"DELETE {COLLECTION}/more-{n:06}")]


def gets(count):
    return [f"GET {COLLECTION}/map-{n:06}" for n in places(count)]


def updates(count):
    """Returns updates that each change the data."""
    return [
        f'PUT {COLLECTION}/map-{n:06} {{"metadata":{{"name":"map-{n:06}"}},"data":{data(line, "after ")}}}'
        for line, n in enumerate(places(count))
    ]


def patches(count):
    """Returns merge patches that each add a text to the data, or replace it."""
    return [f'PATCH {COLLECTION}/map-{n:06} {{"data":{{"patched":"{line}"}}}}' for line, n in enumerate(places(count))]


def repeats(count):
    """Returns how many times a list or a watch of a store of so many objects is asked for."""
    return SHOWN // min(count, MANY)


def lists(count):
    return [f"GET {COLLECTION}?limit={MANY}"] * repeats(count)


def selections(count):
    """Returns lists by four requirements, which all objects meet."""
    return [f"GET {COLLECTION}?limit={MANY}&labelSelector=!tier,app+notin+(web,api),zone!=east,role+notin+(db)"] * repeats(count)


def watches(count):
    """Returns watches of the last changes: the creates' revisions are 2 and up."""
    return [f"GET {COLLECTION}?watch=true&resourceVersion={max(count - MANY, 0) + 1}"] * repeats(count)


def peak_memory(process):
    """Returns the most that a process had resident so far, in KiB; 0 once it has ended. (What `wait4` tells counts this program too.)"""
    try:
        lines = pathlib.Path(f"/proc/{process.pid}/status").read_text().splitlines()
    except OSError:
        return 0
    return max((int(line.split()[1]) for line in lines if line.startswith("VmHWM")), default=0)


def run(command, given, written, limit):
    """Returns the seconds of the processor that one run took, and its peak resident memory in KiB, as it was last seen."""
    memory, ended = 0, 0
    with open(given, "rb") as source, open(written, "wb") as sink:
        began = time.monotonic()
        process = subprocess.Popen(command, stdin=source, stdout=sink)
        while not ended:
            if time.monotonic() > began + limit:
                process.kill()
                sys.exit(f"{command[0]} took more than {limit} seconds")
            memory = max(memory, peak_memory(process))
            time.sleep(0.002)
            ended, status, used = os.wait4(process.pid, os.WNOHANG)
        process.returncode = os.waitstatus_to_exitcode(status)
    if process.returncode != 0:
        sys.exit(f"{command[0]} ended with status {process.returncode}")
    return used.ru_utime + used.ru_stime, memory


def check(replies, codes):
    """Ends the benchmark where a line of the replies begins otherwise than it is to."""
    found = [line[:3] for line in replies.splitlines()]
    if found != codes:
        wrong = next((n for n, pair in enumerate(zip(found, codes)) if pair[0] != pair[1]), min(len(found), len(codes)))
        sys.exit(f"line {wrong + 1} of {len(found)} is not {codes[wrong].decode() if wrong < len(codes) else 'wanted'}")


@dataclasses.dataclass
class Trial:
    """One input, and the best of its runs so far."""

    name: str
    done: int
    given: pathlib.Path
    length: int
    seconds: float = math.inf
    memory: int = 0

    def again(self, program, limit):
        seconds, memory = run([program, "replay"], self.given, os.devnull, limit)
        self.seconds, self.memory = min(self.seconds, seconds), max(self.memory, memory)


def tried(program, folder, name, done, lines, codes, limit):
    """Returns the trial of an input, after one run of it whose replies begin as they are to."""
    given, written = folder / name, folder / "written"
    given.write_text("".join(f"{line}\n" for line in lines))
    run([program, "replay"], given, written, limit)
    replies = written.read_bytes()
    check(replies, codes)
    return Trial(name, done, given, len(replies))


def parts(count):
    """Yields for each part its name, its lines, how many of them are counted as one, and how its replies begin."""
    many = min(count, MANY)
    one_by_one = [("gets", gets), ("updates", updates), ("patches", patches)]
    by_many = [(f"lists of {many:,}", lists), (f"lists of {many:,} by four requirements", selections)]
    yield "creates, each with its delete", creates(count), 2, [b"201", b"200"] * LINES
    for name, make in one_by_one:
        yield name, make(count), 1, [b"200"] * LINES
    for name, make in by_many:
        yield name, make(count), 1, [b"200"] * repeats(count)
    yield f"watches of {many:,} changes", watches(count), 1, ([b"200"] + [FRAME] * many) * repeats(count)


def trials(program, folder, count, limit):
    """Yields the trials of a store of so many objects; the first only fills it."""
    folder.mkdir()
    filled, codes = fills(count), [b"201"] * count
    yield tried(program, folder, "creates into the empty store", count, filled, codes, limit)
    for name, lines, each, begins in parts(count):
        yield tried(program, folder, name, len(lines) // each, filled + lines, codes + begins, limit)


def rows(idle, fill, others):
    """Yields for a fill and the trials after it each name, and how many, how many seconds, bytes and KiB of memory these took."""
    for before, trial in [(idle, fill)] + [(fill, other) for other in others]:
        yield trial.name, trial.done, trial.seconds - before.seconds, trial.length - before.length, trial.memory


def show(idle, sizes):
    """Prints the table, and then how many times as much each part costs with the most objects as with the fewest."""
    print("| Objects | Part | So many | Microseconds each | So many a second | MB a second | Peak memory, MB |")
    print("|---|---|---|---|---|---|---|")
    costs = []
    for count, (fill, *others) in sizes.items():
        costs.append({})
        for name, done, seconds, length, memory in rows(idle, fill, others):
            each = f"{seconds / done * 1e6:,.1f}"
            rates = f"{shared.rate(done, seconds)} | {shared.rate(length / 1e6, seconds)}"
            print(f"| {count:,} | {name} | {done:,} | {each} | {rates} | {memory * 1024 / 1e6:.1f} |")
            costs[-1][name] = seconds / done
    for name in ["creates, each with its delete", "gets", "updates", "patches"]:
        print(f"{name}: {costs[-1][name] / costs[0][name]:.2f} times as much at the last size as at the first")


def main():
    asked = shared.arguments(__doc__, "count", most=262144, default=65000, runs=5)
    program = shared.built(asked.program, "kcp", ["replay"])
    counts = sorted({size for size in SMALLER if size < asked.count} | {asked.count})
    with tempfile.TemporaryDirectory() as folder:
        idle = tried(program, pathlib.Path(folder), "idle", 0, [], [], asked.seconds)
        sizes = {count: list(trials(program, pathlib.Path(folder) / str(count), count, asked.seconds)) for count in counts}
        for _ in range(asked.runs):
            for trial in [idle] + [trial for size in sizes.values() for trial in size]:
                trial.again(program, asked.seconds)
    print(f"best of {asked.runs} runs, processor time on one of {os.cpu_count()} processors")
    show(idle, sizes)


if __name__ == "__main__":
    main()
