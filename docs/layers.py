#!/usr/bin/env python3
"""Writes the layers of docs/ARCHITECTURE.md, a picture and a table, from crates.txt.

    python3 docs/layers.py             writes them
    python3 docs/layers.py --check     changes nothing; the status is 1 where they are not the present ones, or a crate says nothing of itself
    python3 docs/layers.py --crates    prints each crate in a sentence, the first of its own

A layer is a line `# Name: what its crates are for` of crates.txt, and the crates below it.
"""

import re
import signal
import sys
from pathlib import Path

ROOT = Path(__file__).resolve().parent.parent
PAGE = ROOT / "docs/ARCHITECTURE.md"
BEGIN, END = "<!-- made by docs/layers.py -->\n", "<!-- end -->\n"

# Layers that no other stands on are left out of the picture.
ASIDE = ("Examples", "Tests", "Benchmarks")


def layers():
    """Returns the layers by their names: what each is for, and its crates with what they use."""
    found, name = {}, None
    for line in (ROOT / "crates.txt").read_text(encoding="utf-8").splitlines():
        if heading := re.match(r"# (\w[\w ]*): (.*)$", line):
            name = heading[1]
            found[name] = (heading[2], {})
        elif crate := re.match(r"(\w+):(.*)$", line):
            found[name][1][crate[1]] = crate[2].split()
    return found


def job_of(crate):
    """Returns what a crate is for: the first sentence of its root file."""
    for root in ("lib.rt", "main.rt"):
        path = ROOT / "crates" / crate / "src" / root
        if path.exists():
            first = path.read_text(encoding="utf-8").split("\n#!", 1)[0].split("\n//!\n", 1)[0]
            said = " ".join(line.removeprefix("//!").strip() for line in first.splitlines())
            return re.split(r"(?<=\.) (?=[A-Z`])", said)[0]
    sys.exit(f"{crate}: it has no root file")


def edges(found):
    """Which layer stands on which, without what follows from the others."""
    home = {crate: name for name, (_, crates) in found.items() for crate in crates}
    below = {
        name: {home[used] for uses in crates.values() for used in uses if used in home} - {name}
        for name, (_, crates) in found.items()
        if name not in ASIDE
    }

    def reached(name, seen):
        """Returns all layers below one."""
        for other in below[name] - seen:
            seen.add(other)
            reached(other, seen)
        return seen

    for name, direct in below.items():
        for other in sorted(direct):
            if not any(other in reached(third, set()) for third in direct if third != other):
                yield name, other


def picture(found):
    """Returns the layers as Mermaid draws them, with the arrows that begin at one in a row."""
    above = {name: [] for name in found if name not in ASIDE}
    for name, other in edges(found):
        above[other].append(name)
    rows = [f"    {name} --> {' & '.join(ends)}" for name, ends in above.items() if ends]
    return ["```mermaid", "flowchart BT", *rows, "```"]


def table(found):
    """Returns a row for each layer: what it is for, and its crates."""
    rows = ["| Layer | What it is for | Crates |", "|---|---|---|"]
    for name, (job, crates) in found.items():
        rows.append(f"| {name} | {job} | {', '.join(f'`{it}`' for it in crates)} |")
    return rows


def sentences(found):
    """Returns for each layer what it is for, and of each of its crates a sentence."""
    for name, (job, crates) in found.items():
        yield f"# {name}: {job}"
        yield from (f"{crate}: {job_of(crate)}" for crate in crates)


def page_of(found):
    """Returns the text that the page is to have."""
    before, rest = PAGE.read_text(encoding="utf-8").split(BEGIN)
    after = rest.split(END, 1)[1]
    return before + BEGIN + "\n".join([*picture(found), "", *table(found)]) + "\n" + END + after


def main():
    """Writes the page, or says that it is not the present one, or prints the crates."""
    signal.signal(signal.SIGPIPE, signal.SIG_DFL)
    asked, found = sys.argv[1:], layers()
    said, text = "\n".join(sentences(found)), page_of(found)
    if asked == ["--crates"]:
        print(said)
    elif not asked:
        PAGE.write_text(text, encoding="utf-8")
    elif asked != ["--check"]:
        sys.exit(__doc__)
    elif PAGE.read_text(encoding="utf-8") != text:
        sys.exit(f"docs/{PAGE.name} is not the present one: run python3 docs/layers.py")


if __name__ == "__main__":
    main()
