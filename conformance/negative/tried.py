"""Keeps in conformance/tried.txt which crates' negative tests were all refused, over which text, and on which day.

A line is a crate's name, a hash, how many pieces there are, how many were refused, and the day. The hash covers what the refusals rest on:
the crate's sources, specs and pieces, the specs and contracts of all crates below it, and the version of the toolchain.
"""
import datetime
import functools
import hashlib

from negative import pieces

FILE = pieces.ROOT / "conformance" / "tried.txt"


@functools.cache
def version():
    """Returns the toolchain's name of itself."""
    from negative.prover import RT

    with open(f"{RT.KIT}/KIT-ID", encoding="utf-8") as it:
        return it.read().strip()


@functools.cache
def sum_of_crate(folder, parts, is_below):
    """Returns the hash of some folders of a crate; of one below, its sources count without their bodies."""
    found = hashlib.sha256()
    for file in sorted(file for part in parts for file in (folder / part).rglob("*") if file.is_file()):
        content = file.read_bytes()
        if is_below and file.suffix == ".rt":
            content = pieces.without_bodies(content.decode()).encode()
        found.update(f"{file.relative_to(folder)}\n{len(content)}\n".encode() + content)
    return found.hexdigest()


def pieces_of(folder):
    """Returns the files of a crate's pieces: which of the two folders has one makes no difference."""
    return [file for part in pieces.FOLDERS for file in (folder / part).glob("*.edit")]


def hash_of(name, known, root=pieces.ROOT, of_toolchain=None):
    """Returns the hash of what the refusal of a crate's pieces rests on."""
    folder = root / "crates"
    sums = [sum_of_crate(folder / name, ("src", "specs"), False)]
    sums += sorted(f"{it.name} {hashlib.sha256(it.read_bytes()).hexdigest()}" for it in pieces_of(folder / name))
    sums += [f"{it} {sum_of_crate(folder / it, ('src', 'specs'), True)}" for it in sorted(pieces.below(name, known))]
    return hashlib.sha256("\n".join([of_toolchain or version(), *sums]).encode()).hexdigest()[:16]


def read():
    """Returns the words of each line by the names of their crates."""
    lines = FILE.read_text().splitlines() if FILE.exists() else []
    return {line.split()[0]: line.split()[1:] for line in lines if line.strip()}


def write(lines):
    """Writes the lines, sorted."""
    FILE.write_text("".join(f"{' '.join([name, *lines[name]])}\n" for name in sorted(lines)))


def note(name, known, count):
    """Notes that all pieces of a crate were refused today."""
    write(read() | {name: [hash_of(name, known), str(count), str(count), datetime.date.today().isoformat()]})


def is_standing(name, known, lines):
    """Returns whether the pieces of a crate were all refused over the text that it has now."""
    return lines.get(name, [])[:1] == [hash_of(name, known)]


def age(name, lines):
    """Says when the pieces of a crate were last tried, over whatever text."""
    if name not in lines:
        return "never"
    days = (datetime.date.today() - datetime.date.fromisoformat(lines[name][3])).days
    return "today" if days <= 0 else f"{days} days ago"
