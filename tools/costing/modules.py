"""The modules that the prover keeps of a crate: of which function each is, and which part of its proof."""
import collections
import dataclasses
import re

# The parts of a function's proof; what stands before them in a module's name is the function.
PARTS = re.compile(r"\.(Lts|Proof|Tie|Code|Mir|Layout|Kinds|Reads|Named|Answers|Goals|Statement|Symbol|TheLink|Met|Key|Given|View)\b.*")
MODULE = re.compile(r"Rattle[-.](\w+?)[-.](?:proofs|specs)\.(.*)\.oantt")


@dataclasses.dataclass(frozen=True)
class Module:
    """A module: its function, the part that it is, its size, and the moment at which it was made."""

    function: str
    part: str
    size: int
    made: float


def read(folder):
    """Returns the modules in a folder of kept work, in the order in which they were made."""
    found = []
    for file in folder.rglob("*.oantt"):
        name = MODULE.fullmatch(file.name)
        if name and ".decls" not in file.name:
            path = name[2].removeprefix("contracts.")
            part = PARTS.search(path)
            state = file.stat()
            found.append(Module(PARTS.sub("", path), part[1] if part else "specs", state.st_size, state.st_mtime))
    return sorted(found, key=lambda it: it.made)


def largest(table, most):
    """Returns the greatest entries of a table of numbers, so many at most."""
    return collections.Counter(table).most_common(most)
