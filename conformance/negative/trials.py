"""Tries the negative tests of a crate: many in one check where they change the bodies of different functions, the others alone.

A function is checked by its own contract and those of what it calls. So pieces that change only bodies, each of another function, can stand
in one copy of the crate: a function that is refused for a reason of its own refuses its piece. Of one that calls a function that is not
proved the prover says only that, so its piece waits for a later check, as does a second piece of the same function. What is proved
there, and whatever is not clear, is tried alone: first the functions that the piece touches, then the whole crate.
"""
import dataclasses
import enum
import re
import time

from negative import pieces
from negative.prover import PROVED, REFUSED, WAITS

# How long a check that has begun may go on after the time that was given.
SECONDS_TO_END = 240
NO_TIME = "no time was left"
NO_SUCH_FUNCTION = re.compile(r"has no function `([^`]+)`")


class Outcome(enum.Enum):
    REFUSED = "refused"
    NOT_REFUSED = "NOT REFUSED"
    BAD = "BAD EDIT"
    NOT_TRIED = "not tried"
    # Of a piece that has to be tried, whatever time it takes.
    TOO_LATE = "NOT TRIED"


@dataclasses.dataclass(frozen=True)
class Verdict:
    piece: pieces.Piece
    outcome: Outcome
    reason: str


class Trial:
    """The trial of some pieces of a crate, until a moment of the monotonic clock or without one."""

    def __init__(self, prover, name, found, until=None, say=print):
        self.prover, self.name, self.until, self.say = prover, name, until, say
        self.folder, self.verdicts, self.alone = pieces.ROOT / "crates" / name, [], []
        functions = {it: pieces.function_of(it) for it in found}
        self.joint = {it: function for it, function in functions.items() if function}
        self.alone = [it for it in found if not functions[it]]

    def is_over(self):
        return self.until is not None and time.monotonic() > self.until

    def seconds_left(self):
        return 1800 if self.until is None else max(self.until - time.monotonic(), 0) + SECONDS_TO_END

    def judge(self, piece, outcome, reason):
        self.verdicts.append(Verdict(piece, outcome, reason))

    def check(self, texts, only=()):
        return self.prover.check(self.name, texts, only, self.seconds_left())

    def run(self, is_controlled):
        """Tries all, and returns what became of each. Where it is asked for, the functions are first checked as they stand: of one that is not
        proved so, no refusal would say anything, and its pieces are tried alone."""
        lacking = self.prover.lacks(self.name)
        if lacking:
            return [Verdict(it, Outcome.NOT_TRIED, f"{lacking[0]} is not built") for it in [*self.joint, *self.alone]]
        if is_controlled and self.joint and not self.is_over():
            self.control()
        while self.joint and not self.is_over():
            self.try_joint()
        for piece in self.alone:
            if not self.is_over():
                self.try_alone(piece)
        judged = {it.piece for it in self.verdicts}
        left = [it for it in [*self.joint, *self.alone] if it not in judged]
        return self.verdicts + [Verdict(it, Outcome.NOT_TRIED, NO_TIME) for it in left]

    def set_apart(self, functions):
        """Has the pieces of these functions tried alone."""
        self.alone += [it for it, function in self.joint.items() if function in functions]
        self.joint = {it: function for it, function in self.joint.items() if function not in functions}

    def control(self):
        """Checks the functions that the pieces change as they stand."""
        answer = self.check_functions({}, set(self.joint.values()))
        proved = answer.names(PROVED, self.name) if answer and answer.status == 0 else set()
        self.set_apart({it for it in self.joint.values() if it not in proved})

    def check_functions(self, texts, functions):
        """Checks these functions, less those that the crate does not have, whose pieces are set apart; or returns None where none is left."""
        while functions:
            answer = self.check(texts, sorted(functions))
            unknown = {it for it in NO_SUCH_FUNCTION.findall(answer.said) if it in functions}
            if not unknown:
                return answer
            self.set_apart(unknown)
            functions = functions - unknown
        return None

    def chosen(self):
        """Returns pieces that can stand in one copy, and that copy's texts."""
        texts, taken = {}, {}
        for piece, function in self.joint.items():
            new, why = (None, "taken") if function in taken else piece.applied(texts, self.folder)
            if not why:
                texts, taken[function] = new, piece
        return texts, taken

    def try_joint(self):
        """Tries one piece of each function in one check, and leaves those that wait for the function of another piece."""
        began, (texts, taken) = time.monotonic(), self.chosen()
        answer = self.check_functions(texts, set(taken))
        fault = answer.fault(texts) if answer else "the prover knows none of their functions"
        if fault:
            self.say(f"{self.name}: {len(taken)} pieces in one check say nothing, and are tried alone: {fault}")
            self.set_apart(set(taken))
            return
        refused = answer.names(REFUSED, self.name) & set(taken)
        waiting = answer.names(WAITS, self.name) & set(taken) if refused else set()
        for function in refused:
            self.judge(taken[function], Outcome.REFUSED, f"{function} is not proved")
            del self.joint[taken[function]]
        unclear = {taken[function] for function in set(taken) - refused - waiting} & set(self.joint)
        self.alone += unclear
        self.joint = {it: function for it, function in self.joint.items() if it not in unclear}
        self.say(f"{self.name}: {len(refused)} of {len(taken)} refused, in one check of {time.monotonic() - began:.0f} s")

    def try_alone(self, piece):
        """Tries one piece: the functions that it stands in, and then, where these are proved or it stands in none, the whole crate. Nothing is
        judged where the time is over before that."""
        began = time.monotonic()
        texts, why = (None, piece.fault) if piece.fault else piece.applied({}, self.folder)
        if why:
            self.judge(piece, Outcome.BAD, why)
            return
        functions = self.functions_in(texts)
        answer = self.check(texts, functions) if functions else None
        if not answer or answer.fault(texts) or not set(functions) & answer.names(REFUSED, self.name):
            if self.is_over():
                return
            answer = self.check(texts)
        if answer.status < 0 and self.is_over():
            return
        fault = answer.fault(texts)
        outcome = Outcome.BAD if fault else Outcome.NOT_REFUSED if answer.status == 0 else Outcome.REFUSED
        self.judge(piece, outcome, fault or ("the crate is proved with it" if answer.status == 0 else answer.reason()))
        self.say(f"{piece}: {outcome.value}, in {time.monotonic() - began:.0f} s: {self.verdicts[-1].reason}")

    def functions_in(self, texts):
        """Returns the functions that stand where a piece begins to change each source, or none where it also changes something else."""
        found = []
        for path, text in texts.items():
            old = (self.folder / path).read_text(encoding="utf-8")
            found.append(pieces.function_at(path, old, pieces.first_difference(old, text)) if path.startswith("src/") else None)
        return found if all(found) else []
