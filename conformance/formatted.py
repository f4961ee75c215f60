#!/usr/bin/env python3
"""Whether each crate's files are as `rt fmt` writes them, as the gate wants them before it proves anything.

Usage: formatted.py            formats what is not, and names it
       formatted.py --check    only names it
"""
import argparse
import pathlib
import subprocess
import sys

ROOT = pathlib.Path(__file__).resolve().parent.parent
KINDS, FOLDERS = (".rt", ".antt"), ("src", "specs", "proofs")


def files_of(crate):
    """Returns the files of a crate that are formatted."""
    return sorted(str(it) for folder in FOLDERS for it in (crate / folder).rglob("*") if it.suffix in KINDS)


def is_formatted(crate, flag):
    """Returns whether the formatter finds nothing to change in a crate."""
    return subprocess.run(["rattle", "fmt", flag, *files_of(crate)], capture_output=True, stdin=subprocess.DEVNULL).returncode == 0


def main():
    parser = argparse.ArgumentParser(description=__doc__.splitlines()[0])
    parser.add_argument("--check", action="store_true")
    asked = parser.parse_args()
    crates = sorted(it for it in (ROOT / "crates").iterdir() if (it / "src").is_dir())
    wrong = [it for it in crates if not is_formatted(it, "--check")]
    for crate in wrong:
        print(f"crates/{crate.name}: rt fmt changes it")
        if not asked.check:
            is_formatted(crate, "--write")
    print(f"{len(crates) - len(wrong)} passed, {len(wrong)} failed")
    sys.exit(1 if wrong and asked.check else 0)


if __name__ == "__main__":
    main()
