"""Shows what a run of the gate took, as tables, and writes them into docs/GATE.md.

    figures.py FILE            prints the tables of a figures.json that .ci/gate.py has kept
    figures.py --write FILE    puts them into docs/GATE.md, between its two marker lines, with fewer columns

FILE may also be an output of the gate, or its last lines: they say the figures once more, briefly.
"""
import argparse
import functools
import json
import pathlib
import re
import sys

sys.dont_write_bytecode = True
ROOT = pathlib.Path(__file__).resolve().parent.parent
sys.path.append(str(ROOT / "conformance"))
import model
from negative.pieces import libraries, pieces

GUIDE = ROOT / "docs" / "GATE.md"
BRIEFLY = "figures: "
BEGIN, END = "<!-- figures begin -->\n", "<!-- figures end -->\n"
KINDS = ("proofs", "tests", "programs", "negative tests")
# Those that the table of crates shows.
SHOWN = ("proofs", "tests", "negative tests")
# How many columns the table of crates has in docs/GATE.md, where these are read again, and where it is printed.
IN_GUIDE, ALL = 4, None
# What the gate runs: the first, and then the others beside one another.
STAGES = ("rt ci", "negative tests", "conformance")


def known_seconds():
    """Returns for each crate of the table in docs/GATE.md the processor seconds of its proof and of its tests' proof."""
    row = r"(?m)^\| `(\w+)` +\| +[\d,]+ +\| +([\d,]+) +\| +([\d,]+) +\|"
    found = re.findall(row, GUIDE.read_text(encoding="utf-8"))
    return {name: tuple(int(it.replace(",", "")) for it in seconds) for name, *seconds in found}


def table(head, rows):
    """Returns the lines of a table, its columns as wide as their widest text, the first to the left and the others to the right."""
    cells = [[f"{it:,.0f}" if isinstance(it, (int, float)) else str(it) for it in row] for row in [head, *rows]]
    widths = [max(3, *(len(row[at]) for row in cells)) for at in range(len(head))]
    lines = []
    for row in cells:
        padded = [text.ljust(width) if at == 0 else text.rjust(width) for at, (text, width) in enumerate(zip(row, widths))]
        lines.append(f"| {' | '.join(padded)} |")
    rule = ["-" * widths[0], *("-" * (width - 1) + ":" for width in widths[1:])]
    return [lines[0], f"| {' | '.join(rule)} |", *lines[1:]]


def longest_chain(crates):
    """Returns the crates, each standing on the one before it, whose proofs take the most processor time together."""

    def seconds(chain):
        return sum(crates[name]["proofs"] for name in chain)

    @functools.cache
    def chain_to(name):
        return (*max((chain_to(it) for it in crates[name]["uses"] if it in crates), key=seconds, default=()), name)

    return max((chain_to(name) for name in crates), key=seconds, default=())


def whole_table(of):
    """Returns the lines of the table of kinds of work."""
    rows = []
    for kind in KINDS:
        span, seconds = of["spans"][kind], sum(it[kind] for it in of["crates"].values())
        rows.append([kind, *(span or ("", "")), seconds])
    rows += [[f"all of {stage}", "", of["seconds"][stage], of["used"] if stage == "rt ci" else ""] for stage in STAGES]
    return table(["Work", "From second", "To second", "Processor seconds"], rows)


def crates_table(of, columns):
    """Returns the lines of the table of crates, the dearest first, with so many columns."""

    def row(name, crate):
        proved = "" if crate["proved"] is None else crate["proved"]
        return [name, crate["lines"], *[crate[kind] for kind in SHOWN], crate["pieces"], crate["others"], proved]

    crates = sorted(of["crates"].items(), key=lambda it: -sum(it[1][kind] for kind in SHOWN))
    rows = [row(f"`{name}`", crate) for name, crate in crates]
    sums = [sum(crate[part] for _, crate in crates) for part in ("lines", *SHOWN, "pieces", "others")]
    rows.append(["all", *sums, ""])
    head = ["Crate", "Lines", "Proof", "Tests", "Negative tests", "In must-fail", "In wrong-code", "Proved at second"]
    return table(head[:columns], [row[:columns] for row in rows])


def seconds_after(of):
    """Returns how many seconds passed after the first stage."""
    return max(of["seconds"][stage] for stage in STAGES[1:])


def modelled(of):
    """Says how long the whole takes by the model with these processors, with four and with two."""
    after = seconds_after(of)
    found = {count: model.seconds_with(of["crates"], count) for count in sorted({of["processors"], 4, 2}, reverse=True)}
    said = ", ".join(f"{seconds:,.0f} seconds on {count} processors" for count, seconds in found.items())
    whole = ", ".join(f"{seconds + after:,.0f} on {count}" for count, seconds in found.items())
    return f"By the model (`.ci/model.py`) `rt ci` takes {said}; with all that follows it {whole}."


def text_of(of, columns):
    """Returns the figures of a run as text, with a table of crates of so many columns at its end."""
    chain = longest_chain(of["crates"])
    counts = ", ".join(f"{what} {passed} passed, {failed} failed" for what, (passed, failed) in of["passed"].items())
    whole = of["seconds"][STAGES[0]] + seconds_after(of)
    lines = [
        f"Commit {of['commit']}: {counts}. {whole:,.0f} seconds ({whole / 60:,.0f} minutes) on {of['processors']} processors.",
        "",
        *whole_table(of),
        "",
        f"The longest chain of proofs takes {sum(of['crates'][name]['proofs'] for name in chain):,.0f} processor seconds, and ends in `{chain[-1]}`.",
        "",
        modelled(of),
        "",
        "Processor seconds, crate by crate:",
        "",
        *crates_table(of, columns),
    ]
    return "\n".join(lines)


def brief(of):
    """Returns the figures that no one can know without a run as a few lines: of crates in the order of crates.txt how long each proof took, and when
    it ended; for the other kinds of work those that took any time."""
    named = {name: of["crates"][name] for name in libraries() if name in of["crates"]}
    said = {"proofs": [round(it["proofs"]) for it in named.values()]}
    said |= {kind: {name: round(it[kind]) for name, it in named.items() if round(it[kind])} for kind in SHOWN[1:]}
    said["proved"] = [None if it["proved"] is None else round(it["proved"]) for it in named.values()]
    said["whole"] = {part: of[part] for part in ("commit", "processors", "passed")} | {"used": round(of["used"])}
    said["whole"] |= {part: {what: it and [round(second) for second in it] for what, it in of[part].items()} for part in ("spans",)}
    said["whole"] |= {"seconds": {stage: round(it) for stage, it in of["seconds"].items()}}
    return [BRIEFLY + json.dumps({what: it}, separators=(",", ":")) for what, it in said.items()]


def read_briefly(text):
    """Returns the figures of which a text has the brief lines, with what the tree says of each crate."""
    said = {}
    for line in text.splitlines():
        found = re.search(re.escape(BRIEFLY) + r"(\{.*\})", line)
        said |= json.loads(found[1]) if found else {}
    if not {"whole", "proved", *SHOWN} <= said.keys():
        raise SystemExit("the brief lines of the figures are not all there")
    lists = {what: dict(zip(libraries(), said[what])) for what in ("proofs", "proved")}
    crates = {name: {**known, **dict.fromkeys(KINDS, 0), **{what: it[name] for what, it in lists.items()}} for name, known in known_of_tree().items()}
    for kind in SHOWN[1:]:
        for name, seconds in said[kind].items():
            crates[name][kind] = seconds
    return {**said["whole"], "crates": crates}


def lines_of(name):
    """Returns how many lines a crate has, of code, contracts and proofs."""
    folder = ROOT / "crates" / name
    files = [file for part in ("src", "specs", "proofs") for file in (folder / part).rglob("*") if file.suffix in (".rt", ".antt")]
    return sum(file.read_bytes().count(b"\n") for file in files)


def known_of_tree():
    """Returns what the tree says of each crate: its lines, what it uses, and how many negative tests it has."""
    return {
        name: {"lines": lines_of(name), "uses": used, "pieces": len(pieces(name, ["must-fail"])), "others": len(pieces(name, ["wrong-code"]))}
        for name, used in libraries().items()
    }


def figures_in(file):
    """Returns the figures that a file has."""
    text = pathlib.Path(file).read_text(encoding="utf-8")
    return json.loads(text) if text.startswith("{") else read_briefly(text)


def main():
    parser = argparse.ArgumentParser(description=__doc__.splitlines()[0])
    parser.add_argument("--write", action="store_true", help="put the tables into docs/GATE.md")
    parser.add_argument("file", metavar="FILE", help="a figures.json that .ci/gate.py has kept, or what it printed")
    asked = parser.parse_args()
    text = text_of(figures_in(asked.file), IN_GUIDE if asked.write else ALL)
    if not asked.write:
        print(text)
        return
    before, _, rest = GUIDE.read_text(encoding="utf-8").partition(BEGIN)
    _, marker, after = rest.partition(END)
    if not marker:
        raise SystemExit(f"{GUIDE} lacks the lines {BEGIN.strip()} and {END.strip()}")
    GUIDE.write_text(f"{before}{BEGIN}\n{text}\n\n{END}{after}", encoding="utf-8")


if __name__ == "__main__":
    main()
