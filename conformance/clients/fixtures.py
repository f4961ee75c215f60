#!/usr/bin/env python3
"""Runs the fixtures that docs/TESTING.md offers, for pytest and for Go, in tests of their own.

Where pytest or go is not installed, that is said. Of the RESTMapper for controller-runtime the form alone is looked at,
since compiling it wants modules from elsewhere; that is said too.
Usage: fixtures.py --program PATH
"""
import argparse
import importlib.util
import os
import pathlib
import re
import shutil
import subprocess
import sys
import tempfile

ROOM = pathlib.Path(__file__).resolve().parent / "fixtures"
SECONDS = 600


def ran(words, program, room):
    """Returns whether a command went well in a folder, and what it printed."""
    settings = {**os.environ, "KCP": program, "PYTHONDONTWRITEBYTECODE": "1"}
    how = {"cwd": room, "env": settings, "stdin": subprocess.DEVNULL, "stdout": subprocess.PIPE, "stderr": subprocess.STDOUT, "text": True}
    done = subprocess.run(words, timeout=SECONDS, **how)
    return done.returncode == 0, done.stdout


def of_python(program):
    """Runs the tests of pytest, and returns how many passed, and what was not as it has to be."""
    if not importlib.util.find_spec("pytest"):
        print("skipped: pytest is not installed")
        return 0, []
    is_right, printed = ran([sys.executable, "-m", "pytest", "-q", "-rs", "-p", "no:cacheprovider"], program, ROOM)
    for line in printed.splitlines():
        if line.startswith("SKIPPED"):
            print(f"skipped: {line}")
    passed = re.search(r"(\d+) passed", printed)
    return int(passed[1]) if passed else 0, [] if is_right else [f"pytest: {printed[-2000:]}"]


def of_go(program):
    """Runs the tests of Go, and looks at the form of its files."""
    if not shutil.which("go"):
        print("skipped: go is not installed")
        return 0, []
    with tempfile.TemporaryDirectory() as folder:
        room = pathlib.Path(folder, "kcp")
        shutil.copytree(ROOM, room)
        is_right, printed = ran(["go", "test", "-count=1", "-v", "."], program, room)
        wrong = [] if is_right else [f"go test: {printed[-2000:]}"]
        passed = len(re.findall(r"(?m)^--- PASS", printed))
        is_right, printed = ran([shutil.which("gofmt") or "gofmt", "-e", "-l", "."], program, room)
        wrong += [] if is_right and not printed else [f"gofmt: {printed}"]
    print("skipped: mapper.go was not compiled, since that wants the modules of controller-runtime; its form was looked at")
    return passed, wrong


def main():
    parser = argparse.ArgumentParser(description=__doc__.splitlines()[0])
    parser.add_argument("--program", required=True)
    program = str(pathlib.Path(parser.parse_args().program).resolve())
    found = [of_python(program), of_go(program)]
    wrong = [line for _, lines in found for line in lines]
    for line in wrong:
        print(f"FAILED {line}")
    print(f"{sum(passed for passed, _ in found)} passed, {len(wrong)} failed")
    sys.exit(1 if wrong else 0)


if __name__ == "__main__":
    main()
