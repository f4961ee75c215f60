"""What the benchmarks share: their arguments, the program that each measures, and how a rate is written."""
import argparse
import pathlib
import subprocess
import sys

CRATES = pathlib.Path(__file__).resolve().parent.parent / "crates"
BUILD_SECONDS = 3600


def arguments(doc, amount, most, default, runs):
    """Returns the arguments: `--program`, `--runs`, `--seconds`, and how much is done, from 1 to `most`, under a name of its own."""
    parser = argparse.ArgumentParser(description=doc.splitlines()[0])
    parser.add_argument("--program")
    parser.add_argument(f"--{amount}", type=int, default=default)
    parser.add_argument("--runs", type=int, default=runs)
    parser.add_argument("--seconds", type=float, default=120)
    asked = parser.parse_args()
    if not 1 <= getattr(asked, amount) <= most or asked.runs < 1:
        parser.error(f"--{amount} is from 1 to {most}, and --runs at least 1")
    return asked


def built(path, crate, words):
    """Returns the program of a crate, proved and built with a first run on these words where none is given."""
    if path:
        return path
    print(f"building, in crates/{crate}: rt run -- {' '.join(words)}", file=sys.stderr)
    subprocess.run(
        ["rt", "run", "--", *words], cwd=CRATES / crate, stdin=subprocess.DEVNULL, stdout=sys.stderr, check=True, timeout=BUILD_SECONDS
    )
    return str(CRATES / crate / "out" / crate)


def rate(count, seconds):
    return f"{count / seconds:,.0f}" if seconds > 0 else "-"
