#!/usr/bin/env python3
"""Looks whether what the pages name is there: files and headings that they link to, files, folders and names of crates that stand in them as code,
pieces of wrong code, and parts of conformance/run.py.

    python3 docs/links.py [--check]    changes nothing; the status is 1 where something is not there
"""

import functools
import re
import sys
from pathlib import Path

ROOT = Path(__file__).resolve().parent.parent
PAGES = [*sorted(ROOT.glob("*.md")), *sorted((ROOT / "docs").glob("*.md")), *sorted((ROOT / "bench").glob("*.md"))]
# What stands in a page as code and begins so is a path from the top.
TOPS = ("crates/", "conformance/", "docs/", "bench/", ".ci/")
# Folders that are made, and words that stand for any name.
MADE = re.compile(r"/out/|/out$|NAME|CLONE|FILE|my_|\*|\.\.|<|\{")
sys.path.append(str(ROOT / "conformance"))
from parts import GROUPS, PARTS


def anchors(path):
    """Returns the names by which the headings of a page are linked to."""
    heads = re.findall(r"(?m)^#+ (.*)$", path.read_text(encoding="utf-8"))
    return {re.sub(r"[^\w\- ]", "", head.lower()).replace(" ", "-") for head in heads}


def missing_links(page, text):
    """Returns what a page links to that is not there."""
    for target in re.findall(r"\]\(([^)\s]+)\)", text):
        name, _, heading = target.partition("#")
        path = (page.parent / name).resolve() if name else page
        if "://" not in target and (not path.exists() or (heading and heading not in anchors(path))):
            yield target


def is_there(path):
    """Returns whether there is such a file or folder, or a file whose name goes on with an ending."""
    return (ROOT / path).exists() or any((ROOT / path).parent.glob(f"{(ROOT / path).name}.*"))


def missing_paths(text):
    """Returns the files and folders that stand in a page as code and are not there."""
    for word in re.findall(r"[\w./*{}<>-]+", " ".join(re.findall(r"`([^`\n]+)`", text) + re.findall(r"(?ms)^```\n(.*?)^```$", text))):
        if word.startswith(TOPS) and not MADE.search(word) and not is_there(word.rstrip(".,:/")):
            yield word


def missing_names(text):
    """Returns the names that stand in a page as code after one of a crate of this repository, and that this crate does not have."""
    for code in re.findall(r"`([^`\n]+)`", text):
        for crate, many, one in re.findall(r"(?<![\w:])(\w+)::(?:\{([^}]*)\}|(\w+))", code):
            names = re.findall(r"\w+(?=$|[,:( ])", re.sub(r"::\w+", "", many)) if many else [one]
            yield from (f"{crate}::{name}" for name in names if (ROOT / "crates" / crate).is_dir() and name not in words_of(crate))


def missing_calls(text):
    """Returns the calls of tables whose first column names crates, and the second calls of these, that none of them has."""
    crates = []
    for first, second in re.findall(r"(?m)^\| ([^|]*)\| ([^|]*) \|", text):
        named = re.findall(r"`(\w+)`", first)
        crates = named if named and all((ROOT / "crates" / it).is_dir() for it in named) else [] if first.strip() else crates
        if crates and "`" not in re.sub(r"`[^`]*`", "", first):
            called = re.findall(r"\w+", " ".join(re.findall(r"`([^`]+)`", second)))
            yield from (f"{' or '.join(crates)}: {it}" for it in called if not any(it in words_of(crate) or it == crate for crate in crates))


@functools.cache
def words_of(crate):
    """Returns all words of a crate's code and definitions."""
    files = [it for part in ("src", "specs") for it in (ROOT / "crates" / crate / part).rglob("*.*t")]
    return set(re.findall(r"\w+", " ".join(it.read_text(encoding="utf-8") for it in files)))


def missing_pieces(text):
    """Returns the pieces of wrong code of the table in docs/PROVED.md that are not there, and the parts that conformance/run.py does not have."""
    rows = "\n".join(line for line in text.split("## Wrong bodies", 1)[-1].splitlines() if line.startswith("|")) if "## Wrong bodies" in text else ""
    for crate, name in re.findall(r"`(\w+)/(\w+)`", rows):
        if not (ROOT / "crates" / crate / "must-fail" / f"{name}.edit").exists():
            yield f"{crate}/{name}"
    for name in re.findall(r"conformance/run\.py (\w[\w-]*)", text):
        if name not in (*PARTS, *GROUPS, "NAME"):
            yield f"conformance/run.py {name}"


def main():
    """Says what is not there."""
    if sys.argv[1:] not in ([], ["--check"]):
        sys.exit(__doc__)
    wrong = []
    for page in PAGES:
        text = page.read_text(encoding="utf-8")
        found = [*missing_links(page, text), *missing_paths(text), *missing_names(text), *missing_calls(text), *missing_pieces(text)]
        wrong += [f"{page.relative_to(ROOT)}: {it} is not there" for it in dict.fromkeys(found)]
    print("\n".join(wrong), end="\n" if wrong else "")
    sys.exit(1 if wrong else 0)


if __name__ == "__main__":
    main()
