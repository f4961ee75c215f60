"""Reads what ends each wait, and how that is taken away.

NAME.edit has a wait of the running program: lines 'waits: TEXT' and 'ended by: TEXT', what is taken away of that; 'within: TEXT', how long it may
last at most, where that can be said; 'crate: NAME', and the change of its code as in crates/NAME/wrong-code; and what has to fail then, one or more of

    tests: CRATE TEST ..        tests of a crate
    program: SCRIPT WORD ..     a script of conformance/ on the program

'refused: NAME/PIECE', if it is there, names the negative test of a crate that takes away the rest, and that the prover refuses.
"""
import dataclasses
import pathlib
import sys

HERE = pathlib.Path(__file__).resolve().parent
sys.path[1:1] = [str(HERE.parent)]
from negative import pieces


@dataclasses.dataclass
class Waking:
    """What ends a wait: its name, what waits and how long, what is taken away and how, and the tests and scripts that have to fail then."""

    name: str
    waits: str
    ended_by: str
    within: str
    piece: pieces.Piece
    tests: list
    scripts: list
    refused: list

    def why_not_applied(self):
        """Returns why nothing can be taken away, or None."""
        if not self.tests and not self.scripts:
            return "it names nothing that has to fail"
        known = {str(it) for name in {it.partition("/")[0] for it in self.refused} for it in pieces.pieces(name)}
        missing = [it for it in self.refused if it not in known] + [it for crate, names in self.tests for it in names if not has_test(crate, it)]
        return f"there is no {missing[0]}" if missing else self.piece.why_not_applied()

    def take_away(self, tree):
        """Changes the code in a copy of the tree."""
        folder = tree / "crates" / self.piece.crate
        texts, fault = self.piece.applied({}, folder)
        if fault:
            raise ValueError(fault)
        for path, text in texts.items():
            (folder / path).write_text(text, encoding="utf-8")


def has_test(crate, name):
    """Returns whether a crate has a function of this name."""
    files = (pieces.ROOT / "crates" / crate / "src").rglob("*.rt")
    return any(f"fn {name}(" in it.read_text(encoding="utf-8") for it in files)


def said(lines, word):
    """Returns what the lines say that begin with a word."""
    return [line[len(word) + 2:].strip() for line in lines if line.startswith(f"{word}: ")]


def read(path):
    """Returns the waking that a file has."""
    lines = path.read_text(encoding="utf-8").splitlines()
    (waits,), (ended_by,), (crate,) = said(lines, "waits"), said(lines, "ended by"), said(lines, "crate")
    tests = [(it.split()[0], it.split()[1:]) for it in said(lines, "tests")]
    scripts = [it.split() for it in said(lines, "program")]
    within = " ".join(said(lines, "within"))
    return Waking(path.stem, waits, ended_by, within, pieces.read(crate, path), tests, scripts, said(lines, "refused"))


def all_wakings(words=()):
    """Returns the wakings whose names have one of the words, or all, in the order of their names."""
    found = [read(path) for path in sorted(HERE.glob("*.edit"))]
    return [it for it in found if not words or any(word in it.name for word in words)]
