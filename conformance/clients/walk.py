#!/usr/bin/env python3
"""Runs the beginning of the walk in docs/CLIENT.md, from the clone to the crates of a controller of one's own, and looks at what it leaves.

What follows in the block proves for an hour or more, and is skipped, which is said; following/controllers.py runs the example that is copied there.
Where rt or git is not installed, or the repository is no clone, all of it is skipped.
Usage: walk.py
"""
import pathlib
import re
import shutil
import subprocess
import sys
import tempfile

ROOT = pathlib.Path(__file__).resolve().parent.parent.parent
HEADING, LAST = "## From an empty folder to a controller", "python3 build.py"
# Each crate that it makes, and which one is copied.
COPIED = {"my_mirror": "mirror_example", "my_controller": "controller_example"}
SECONDS = 300


def block():
    """Returns the lines of the walk."""
    section = (ROOT / "docs" / "CLIENT.md").read_text(encoding="utf-8").partition(HEADING)[2]
    return re.search(r"(?ms)^```\n(.*?)^```$", section)[1].splitlines()


def files(crate):
    """Returns the files of a crate, but for its negative tests and what was built."""
    return sorted(str(it.relative_to(crate)) for it in crate.rglob("*") if it.is_file() and not {"wrong-code", "out"} & set(it.relative_to(crate).parts))


def wrong_of(tree):
    """Returns what the walk did not leave as it is to be."""
    for name, copied in COPIED.items():
        crate = tree / "crates" / name
        if (crate / "wrong-code").exists() or files(crate) != files(tree / "crates" / copied):
            yield f"{name} has other files than {copied}"
        for it in files(crate):
            if "_example" in (crate / it).read_text(encoding="utf-8"):
                yield f"{it} of {name} names an example"
    lines = (tree / "crates.txt").read_text(encoding="utf-8").splitlines()
    if [it.partition(":")[0] for it in lines[-2:]] != list(COPIED):
        yield f"crates.txt ends with {lines[-2:]!r}"


def main():
    missing = [it for it in ("rt", "git") if not shutil.which(it)]
    if missing or not (ROOT / ".git").exists():
        print(f"skipped: {' and '.join(missing)} not installed" if missing else "skipped: this is no clone", "0 passed, 0 failed", sep="\n")
        return
    lines = block()
    run, left = lines[: lines.index(LAST)], lines[lines.index(LAST) :]
    with tempfile.TemporaryDirectory() as room:
        script = "\n".join(["set -e", *run]).replace("URL", str(ROOT))
        ran = subprocess.run(["bash", "-c", script], cwd=room, stdin=subprocess.DEVNULL, capture_output=True, text=True, timeout=SECONDS)
        wrong = [f"status {ran.returncode}: {ran.stderr[-400:]}"] if ran.returncode else list(wrong_of(pathlib.Path(room, "kcp")))
    print(f"skipped: {len(left)} lines from `{LAST}` on, which prove for an hour or more")
    for line in wrong:
        print(f"FAILED docs/CLIENT.md: {line}")
    print(f"{0 if wrong else 1} passed, {len(wrong)} failed")
    sys.exit(1 if wrong else 0)


if __name__ == "__main__":
    main()
