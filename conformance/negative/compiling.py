"""Finds the pieces of wrong code that the compiler does not take, as where they use what their crate no longer has: such a piece says nothing of a
contract, and fails the gate that tries it.

A crate is checked with as many pieces in one copy as apply beside one another, but for its proofs; where that is refused, with half of them, until
the wrong ones are found. The libraries below have to be built."""
import re

from negative import pieces

ERROR = re.compile(r"\S+:\d+:\d+: error.*")
MOST_SECONDS = 300


def beside_one_another(found, folder):
    """Returns the texts with as many of these pieces in them as apply one after another, these pieces, and the others."""
    texts, taken, left = {}, [], []
    for it in found:
        more, fault = it.applied(texts, folder)
        texts, taken, left = (texts, taken, [*left, it]) if fault else (more, [*taken, it], left)
    return texts, taken, left


def not_taken(prover, name, found):
    """Returns those of a crate's pieces that the compiler does not take, each with its first error."""
    wrong, waiting = [], [found]
    while waiting:
        texts, taken, left = beside_one_another(waiting.pop(), pieces.ROOT / "crates" / name)
        if not taken:
            wrong += [(it, it.why_not_applied() or "it applies beside no other") for it in left]
            continue
        if left:
            waiting.append(left)
        error = next(filter(None, map(ERROR.match, prover.check(name, texts, [""], MOST_SECONDS).lines())), None)
        if error and len(taken) > 1:
            waiting += [taken[: len(taken) // 2], taken[len(taken) // 2 :]]
        elif error:
            wrong.append((taken[0], error[0]))
    return wrong
