"""Has the prover check copies of a crate with wrong code in them, over the libraries that are built, and judges what it says."""
import dataclasses
import os
import pathlib
import re
import shutil
import subprocess
import sys
import tempfile
import threading

from negative import pieces

sys.path.insert(0, str(pieces.ROOT / ".ci"))
import toolchain

RT = toolchain.load()
# What is said of a function that is refused for a reason of its own; of one that calls such a one something else is said.
REFUSED = re.compile(r"fn (\S+): (?:not proved|no proof)(?!: it calls)")
WAITS = re.compile(r"fn (\S+): (?:not proved|no proof): it calls")
PROVED = re.compile(r"fn (\S+): proved")
# An answer that names what the edit took away: the proof no longer fits, which says little of the contract.
STALE_PROOF = re.compile(r"(\./)?proofs/.*(has no field|is not in scope|has no `|was not admitted)")
TOLD = re.compile(r"(note: )?\S+:\d+:\d+:")
BYTES_KEPT_FREE = 1_500_000_000


class Memory:
    """Lets checks begin as memory allows, one at least."""

    def __init__(self):
        self.changed, self.taken, self.running = threading.Condition(), 0, 0
        self.whole = max(RT.free() - BYTES_KEPT_FREE, 0)

    def take(self, needs):
        with self.changed:
            self.changed.wait_for(lambda: not self.running or self.taken + needs <= self.whole)
            self.taken, self.running = self.taken + needs, self.running + 1

    def give(self, needs):
        with self.changed:
            self.taken, self.running = self.taken - needs, self.running - 1
            self.changed.notify_all()


@dataclasses.dataclass
class Answer:
    """What a check of some functions, or of a whole crate, said."""

    said: str
    status: int
    is_partial: bool

    def lines(self):
        return self.said.rstrip("\n").split("\n")

    def fault(self, texts):
        """Returns why this says nothing of the wrong code, or None."""
        bad = next((line for line in self.lines() if RT.unread(line, texts)), None)
        if bad:
            return f"the prover cannot read the edited text: {bad[:160]}"
        if RT.rtlib.STALE.search(self.said):
            return "a library could not be used"
        last, wanted = self.lines()[-1], "only=" if self.is_partial else "logic=not-proved"
        if self.status not in (0, 1) or self.status == 1 and not last.startswith(wanted):
            return f"it ended with status {self.status}: {last[:160]}"
        return None

    def names(self, pattern, crate):
        """Returns the functions of the crate of which such a line was said."""
        found = [pattern.match(line) for line in self.lines()]
        return {it[1].removeprefix(f"{crate}::") for it in found if it}

    def reason(self):
        """Returns the first error that is told; one that only says that a proof names what is gone where there is no other."""
        told = [line for line in self.lines() if TOLD.match(line) and (": error" in line or line.startswith("note: "))]
        other = [line for line in told if not STALE_PROOF.match(line)]
        if told and not other:
            return f"only because a proof names what the edit took away, which says little of the contract: {told[0][:120]}"
        return (other or [line for line in self.lines() if REFUSED.match(line)] or [""])[0][:140]


class Prover:
    """Checks copies of crates, over the libraries of the tree, which earlier commands have built."""

    def __init__(self):
        self.crates = {it.name: it for it in RT.rtlib.crates_below(str(pieces.ROOT))}
        self.memory = Memory()

    def lacks(self, name):
        """Returns the libraries below a crate that are not built."""
        return [it.name for it in self.crates[name].below() if not os.path.isdir(it.rlib)]

    def check(self, name, texts, only=(), most=1800):
        """Checks a copy of a crate with these texts in the place of its own: of these functions, or of all where none is named."""
        crate = self.crates[name]
        words = [RT.rtlib.RATTLE, "check", *crate.words(["--jobs", "1"], keeps=False), *(it for path in only for it in ("--only", path))]
        how = {"stdin": subprocess.DEVNULL, "stdout": subprocess.PIPE, "stderr": subprocess.STDOUT, "errors": "replace", "text": True}
        needs = RT.need(crate)
        self.memory.take(needs)
        try:
            with tempfile.TemporaryDirectory(prefix="rt-edit-") as room:
                copy_parts(crate.folder, room, texts)
                started = subprocess.Popen(words, cwd=room, **how)
                try:
                    said, _ = started.communicate(timeout=most)
                except subprocess.TimeoutExpired:
                    started.kill()
                    said, _ = started.communicate()
                    said += f"\nit had not ended after {most:.0f} seconds"
        finally:
            self.memory.give(needs)
        return Answer(said, started.returncode, bool(only))


def copy_parts(folder, room, texts):
    """Copies what a check reads of a crate, with these texts in it."""
    for part in pieces.PARTS:
        if os.path.isdir(f"{folder}/{part}"):
            shutil.copytree(f"{folder}/{part}", f"{room}/{part}")
    for path, text in texts.items():
        pathlib.Path(room, path).write_text(text, encoding="utf-8")
