"""Runs each part of the program of benchmarks once, on little, and compares what it writes.

Usage: benchmarks.py --program PATH
"""
import argparse
import subprocess
import sys

ROWS = [
    (["queue", "queue", "1"], "1000 keys handed out"),
    (["queue", "plain", "1"], "1000 keys handed out"),
    (["decoder", "64", "1", "512"], "2048 frames"),
    (["informer", "owner", "1"], "100"),
    (["lister", "publish", "1"], "10001 shifts"),
    (["plan", "half", "500", "2"], "2 plans, 502 commands"),
]
SECONDS = 60


def is_right(program, words, expected):
    """Returns whether the program writes just this line; says what it wrote where it does not."""
    done = subprocess.run([program, *words], stdin=subprocess.DEVNULL, capture_output=True, text=True, timeout=SECONDS)
    right = (done.returncode, done.stdout, done.stderr) == (0, expected + "\n", "")
    if not right:
        print(f"FAILED {' '.join(words)}: status {done.returncode}, {done.stdout.strip()!r}, {done.stderr.strip()!r}; expected {expected!r}")
    return right


def main():
    parser = argparse.ArgumentParser(description=__doc__.splitlines()[0])
    parser.add_argument("--program", required=True)
    program = parser.parse_args().program
    passed = sum(is_right(program, words, expected) for words, expected in ROWS)
    print(f"{passed} passed, {len(ROWS) - passed} failed")
    sys.exit(passed < len(ROWS))


if __name__ == "__main__":
    main()
