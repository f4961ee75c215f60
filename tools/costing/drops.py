"""What functions drop, at each of their exits, as the library of a crate has their code."""
import collections
import json
import sys

from costing import modules

# How deep the code of a function may nest: each statement stands in the one before it.
DEEPEST = 100_000

# How many parts stand behind a node of a function's code, but for a switch, which has one for each of its arms.
PARTS_OF = {"Seq": 2, "If": 2, "Block": 1, "Loop": 1}


def tell(root, names, most):
    """Yields the nodes of all functions and those of drops, by crate, by type and by function."""
    sys.setrecursionlimit(DEEPEST)
    by_type, by_function = collections.Counter(), collections.Counter()
    for name in names:
        file = root / "crates" / name / "out" / "rlib" / f"{name}.rlib" / "toolchain" / "mir.json"
        of_crate = collections.Counter()
        for function, code in json.loads(file.read_text()):
            if "Destruct" not in function:
                dropped = Code(code).dropped
                by_type.update(dropped.by_type)
                by_function[function] = dropped.by_type.total()
                of_crate.update(nodes=dropped.nodes, drops=dropped.by_type.total())
        yield f"{name}: {of_crate['drops']} of {of_crate['nodes']} nodes drop something"
    for table in (by_type, by_function):
        yield ""
        for what, nodes in modules.largest(table, most):
            yield f"  {nodes:6}  {what}"


class Dropped:
    """How many nodes a function has, and how many of them drop something, by its type."""

    def __init__(self):
        self.nodes, self.by_type = 0, collections.Counter()


class Code:
    """The code of a function, written in prefix notation."""

    def __init__(self, code):
        self.types, self.parts_of, self.dropped = [it["ty"] for it in code["locals"]], {}, Dropped()
        self.scan(tree(iter(code["body"])))

    def scan(self, node):
        """Counts the nodes of a part of the code, and which of them drop something."""
        kind, said, parts = node
        if kind != "Seq":
            self.dropped.nodes += 1
        if kind == "Assign":
            self.note_part(*said)
        elif kind == "Call" and is_drop(said):
            self.count_drop(said[1][0]["Copy"]["local"], 1)
        elif kind == "Switch" and all(map(drops_only, parts)) and "Copy" in said[0]:
            self.count_drop(said[0]["Copy"]["local"], 1)
        for part in parts:
            self.scan(part)

    def note_part(self, place, value):
        """Notes that a local is a part of another, as of a value that is taken apart to be dropped."""
        copied = value.get("Opd", {}) if isinstance(value, dict) else {}
        taken = copied.get("Copy") if isinstance(copied, dict) else None
        if taken and taken["steps"] and not place["steps"]:
            self.parts_of[place["local"]] = taken["local"]

    def count_drop(self, local, nodes):
        """Counts the drop of a local under the type of the whole that it is a part of."""
        seen = {local}
        while local in self.parts_of and self.parts_of[local] not in seen:
            local, nodes = self.parts_of[local], nodes + 1
            seen.add(local)
        self.dropped.by_type[name_of(self.types[local])] += nodes


def tree(tokens):
    """Returns the next node of the code: its kind, what it says, and its parts."""
    token = next(tokens)
    kind, said = (token, None) if isinstance(token, str) else next(iter(token.items()))
    count = len(said[1]) + bool(said[2]) if kind == "Switch" else PARTS_OF.get(kind, 0)
    return kind, said, [tree(tokens) for _ in range(count)]


def is_drop(call):
    function = call[0].get("Fn")
    return (function[0].endswith("::drop") if function else '"drop"' in json.dumps(call[0])) and "Copy" in call[1][0]


def drops_only(node):
    """Returns whether a part of the code does nothing but drop what a value has."""
    kind, said, parts = node
    if kind in ("Seq", "Switch"):
        return all(map(drops_only, parts))
    return kind in ("Skip", "Assign") or kind == "Call" and is_drop(said)


def name_of(type_):
    """Returns how a type is written, briefly."""
    if isinstance(type_, str):
        return type_
    kind, said = next(iter(type_.items()))
    if kind != "Named":
        return f"u{said}" if kind == "Int" else kind
    name, arguments = said[0]["name"].rpartition("::")[2], [name_of(it) for it in said[1]]
    shown = [it for it in arguments if it != "Global"]
    return f"{name}<{', '.join(shown)}>" if shown else name
