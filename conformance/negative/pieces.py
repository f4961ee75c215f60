"""Reads the negative tests of the crates, and says where in a crate each changes what.

A piece of wrong code is a file NAME.edit in crates/NAME/must-fail or crates/NAME/wrong-code: lines 'file: PATH', each with pairs of lines
'old: TEXT' and 'new: TEXT' below it. Each old text stands exactly once in its file, as the pairs before it leave it.
"""
import dataclasses
import os
import pathlib
import re

ROOT = pathlib.Path(__file__).resolve().parent.parent.parent
# What a copy of a crate needs to be checked, and the folders of pieces: those that `rt ci` tries, and the others.
PARTS = ("src", "specs", "proofs")
FOLDERS = ("must-fail", "wrong-code")


@dataclasses.dataclass(frozen=True)
class Change:
    """A text that stands once in a file of the crate, and what to put in its place."""

    path: str
    old: str
    new: str


@dataclasses.dataclass(frozen=True)
class Piece:
    """A negative test: its crate, its file, its changes, and why it cannot be read, if it cannot."""

    crate: str
    file: pathlib.Path
    changes: tuple
    fault: str

    def __str__(self):
        return f"{self.crate}/{self.file.stem}"

    def applied(self, texts, folder):
        """Returns the texts by their paths with the changes made in them, those that they lack read from the crate's folder, and why that
        cannot be done, or None."""
        texts = dict(texts)
        for it in self.changes:
            if it.path not in texts:
                try:
                    texts[it.path] = (folder / it.path).read_text(encoding="utf-8")
                except (OSError, UnicodeDecodeError):
                    return None, f"there is no file {it.path}"
            count = texts[it.path].count(it.old)
            if count != 1:
                return None, f"an 'old:' text stands in {it.path} {count} times, and not once: {it.old.strip()[:60]}"
            texts[it.path] = texts[it.path].replace(it.old, it.new)
        return texts, None

    def why_not_applied(self):
        """Returns why the piece does not apply to the text of its crate, or None where it does."""
        return self.fault or self.applied({}, ROOT / "crates" / self.crate)[1]


def read(crate, file):
    """Returns the piece that a file says."""
    path, old, changes, fault = "", None, [], None
    for line in file.read_text(encoding="utf-8", errors="replace").split("\n"):
        if line.startswith("file: "):
            path = line[len("file: "):].strip()
            if os.path.normpath(path) != path or not path.startswith(tuple(f"{part}/" for part in PARTS)):
                fault = "a 'file:' line names no file below src, specs or proofs"
        elif line.startswith("old: "):
            old = line[len("old: "):]
        elif line.startswith("new:"):
            if not path or not old:
                fault = "a 'new:' line stands before any 'file:' or 'old:' line"
            changes.append(Change(path, old, line[len("new:"):].removeprefix(" ")))
            old = None
    return Piece(crate, file, tuple(changes), fault or (None if changes else "it has no pair of 'old:' and 'new:'"))


def pieces(crate, folders=FOLDERS):
    """Returns a crate's negative tests in these folders."""
    top = ROOT / "crates" / crate
    return [read(crate, file) for folder in folders for file in sorted((top / folder).glob("*.edit"))]


def libraries():
    """Returns for each crate of crates.txt, lowest first, the libraries that its line names."""
    lines = [line for line in (ROOT / "crates.txt").read_text().splitlines() if line.strip() and not line.startswith("#")]
    return {name.strip(): named.split() for name, _, named in (line.partition(":") for line in lines)}


def below(name, known):
    """Returns the crates of the repository on which a crate stands, at any depth."""
    found, left = set(), [name]
    while left:
        new = {it for it in known[left.pop()] if it in known} - found
        found |= new
        left += new
    return found


def function_at(path, text, at):
    """Returns the name by which the prover knows the function that a place of a source stands in, as far as the layout tells, or None."""
    lines = text[:at].split("\n")
    row = text.split("\n")[len(lines) - 1]
    indent, function, owner = len(row) - len(row.lstrip()), None, ""
    for line in reversed([*lines[:-1], row]):
        own = len(line) - len(line.lstrip())
        if not line.strip():
            continue
        if function is None:
            found = re.match(r"\s*(?:pub(?:\([^)]*\))?\s+)?(?:const\s+|unsafe\s+)*fn\s+(\w+)", line)
            if found and (own < indent or line is row):
                function, indent = found[1], own
        elif own < indent:
            owner = owner_in(line)
            break
    module = "::".join(it for it in pathlib.PurePath(path).with_suffix("").parts[1:] if it not in ("lib", "main", "mod"))
    return "::".join(filter(None, [home_of(text, owner) or module, owner, function])) if function else None


def home_of(text, owner):
    """Returns the module of the crate from which a source has a type, by which the prover knows the type's methods wherever they stand, or None."""
    for module, names in re.findall(r"(?m)^use crate::([\w:]+)::(\{[^}]*\}|\w+);", text):
        if owner and owner in re.findall(r"\w+", names):
            return module
    return None


def owner_in(line):
    """Returns the type that the head of an `impl` names, with the trait after it, or nothing where the line is no such head."""
    found = re.match(r"\s*impl\b(?:<.*?>)?\s+(?:(.*?)\s+for\s+)?(\w+)", line)
    if not found:
        return ""
    trait = found[1] or ""
    plain = trait if "<" in trait else trait.rpartition("::")[2]
    return found[2] + re.sub(r"[^A-Za-z0-9]", "", plain)


def first_difference(one, other):
    """Returns the first place at which two texts that are not the same differ."""
    return next(at for at, (a, b) in enumerate(zip(one + "\0", other + "\1")) if a != b)


def function_of(piece):
    """Returns the function whose body alone a piece changes, so that it can be tried beside pieces of other functions, or None."""
    folder = ROOT / "crates" / piece.crate
    texts, why = piece.applied({}, folder)
    if why:
        return None
    found = set()
    for path, text in texts.items():
        old = (folder / path).read_text(encoding="utf-8")
        is_inside = path.startswith("src/") and old != text and without_bodies(old) == without_bodies(text)
        found.add(function_at(path, old, first_difference(old, text)) if is_inside else None)
    return found.pop() if len(found) == 1 else None


TOKEN = re.compile(
    r'(?P<comment>//[^\n]*|/\*.*?\*/)|(?P<text>b?r(?P<hashes>#*)".*?"(?P=hashes)|b?"(?:\\.|[^"\\])*"|b?\'(?:\\.[^\']*|[^\\\'])\')'
    r"|(?P<function>(?<![\w])fn\s+\w+)|(?P<mark>[{};])", re.S
)
CLAUSE = re.compile(r"(requires|ensures)\s*\*?(\s*\w+)?\s*$|ghost(\s+\w+\s*[:=](\s*(owns|lends))?)?\s*$|\}\s*(=|by)\s*$")


def without_bodies(text):
    """Returns a source's text with the body of each function and all comments left out: what other functions and crates can rely on."""
    kept, at, is_in_head, depth, body = [], 0, False, 0, None
    for found in TOKEN.finditer(text):
        if body is None:
            kept.append(text[at:found.start()])
        at, mark = found.end(), found["mark"]
        if found["comment"]:
            continue
        if mark == "{" and body is None and is_in_head and depth == 0 and not CLAUSE.search("".join(kept[-12:])):
            body = 0
        if body is not None:
            body += {"{": 1, "}": -1}.get(mark, 0)
            if mark == "}" and body == 0:
                body, is_in_head = None, False
                kept.append("{}")
            continue
        if found["function"]:
            is_in_head, depth = True, 0
        elif is_in_head:
            depth += {"{": 1, "}": -1}.get(mark, 0)
            is_in_head = not (mark == ";" and depth == 0)
        kept.append(found[0])
    kept.append(text[at:])
    return re.sub(r"\s+", " ", "".join(kept))
