"""Builds from a tree without any proof: runs the tests of a crate, or gets the program, by `rt try`."""
import contextlib
import os
import pathlib
import shlex
import shutil
import signal
import subprocess
import time

# For how many seconds each test may run, and a build on a machine that has other work.
TEST_SECONDS = 30
BUILD_SECONDS = 900
PAUSE_SECONDS = 0.1
# What the program is started with to be found while it runs: it listens, and would go on.
ARGUMENTS = ["serve", "--port", "0"]


class Unbuilt(Exception):
    """What the tests or the program are made from cannot be built."""


def ran_tests(tree, crate):
    """Runs the tests of a crate, and returns the names of those that passed, and what was written. Where one does not end, the last lines before
    that are shown, behind a bar."""
    words = ["rt", "try", "--test", "--seconds", str(TEST_SECONDS)]
    run = subprocess.run(words, cwd=tree / "crates" / crate, stdin=subprocess.DEVNULL, capture_output=True, text=True, errors="replace", timeout=BUILD_SECONDS)
    said = run.stdout + run.stderr
    if "run=none" in said:
        raise Unbuilt(said[-2000:])
    words = [line.removeprefix("| ").split() for line in said.splitlines()]
    return {it[1].rpartition("::")[2] for it in words if len(it) == 4 and it[0] == "test" and it[2:] == ["...", "ok"]}, said


def below(process):
    """Returns the processes that a process has started, at any depth. A thread of it may end meanwhile."""
    found = []
    for path in pathlib.Path(f"/proc/{process}/task").glob("*/children"):
        with contextlib.suppress(OSError):
            for it in path.read_text().split():
                found += [it, *below(it)]
    return found


def running_program(process):
    """Returns the words that start the program which is being tried below a process, up to its own path, if it is running by now: it may be
    started by way of a loader."""
    for it in below(process):
        try:
            words = pathlib.Path(f"/proc/{it}/cmdline").read_text().split("\0")[:-1]
            folder = os.readlink(f"/proc/{it}/cwd")
        except OSError:
            continue
        if len(words) > len(ARGUMENTS) and words[-len(ARGUMENTS):] == ARGUMENTS:
            *loader, found = words[:-len(ARGUMENTS)]
            path = os.path.join(folder, found)
            # What starts the program has the same last words.
            if os.path.isfile(path) and os.access(path, os.X_OK):
                return [*loader, path]
    return None


def keep(words, path):
    """Copies a program that is started by these words, and makes a script at a path that starts the copy."""
    copy = path.with_name(f"{path.name}.program")
    shutil.copyfile(words[-1], copy)
    copy.chmod(0o755)
    path.write_text(f"#!/bin/sh\nexec {shlex.join([*words[:-1], str(copy)])} \"$@\"\n")
    path.chmod(0o755)


def program(tree, path):
    """Builds `kcp`, and has a path start it: `rt try` keeps no file, so it is taken while `rt try` runs it."""
    words = ["rt", "try", "--seconds", str(TEST_SECONDS), "--", *ARGUMENTS]
    trying = subprocess.Popen(words, cwd=tree / "crates" / "kcp", stdin=subprocess.DEVNULL, stdout=subprocess.PIPE, stderr=subprocess.STDOUT)
    last = time.monotonic() + BUILD_SECONDS
    try:
        while trying.poll() is None and time.monotonic() < last:
            if found := running_program(trying.pid):
                return keep(found, path)
            time.sleep(PAUSE_SECONDS)
    finally:
        trying.send_signal(signal.SIGTERM)
        said = trying.communicate()[0].decode("utf-8", "replace")
    raise Unbuilt(said[-2000:])
