"""How long the proof of each function of a crate takes."""
import collections
import os
import pathlib
import subprocess
import sys
import tempfile

from costing import modules


def tell(root, names, most):
    """Checks each crate from nothing, and yields the seconds of its slowest functions, and of their slowest modules."""
    sys.path.insert(0, str(root / ".ci"))
    import toolchain

    rtlib = toolchain.load().rtlib
    os.chdir(root)
    crates = {it.name: it for it in rtlib.crates_below(str(root))}
    for name in names:
        with tempfile.TemporaryDirectory(prefix="costs-") as room:
            words = [rtlib.RATTLE, "check", *crates[name].words(["--jobs", "1"], keeps=False), "--incremental", room]
            ran = subprocess.run(words, cwd=crates[name].folder, stdin=subprocess.DEVNULL, stdout=subprocess.PIPE, stderr=subprocess.STDOUT, text=True)
            yield f"{name}: {(ran.stdout.splitlines() or ['it said nothing'])[-1][:120]}"
            yield from of_modules(modules.read(pathlib.Path(room)), most)


def of_modules(found, most):
    """Yields the seconds of the slowest functions and modules: a module took what has passed since the one before it was made."""
    by_function, by_module = collections.Counter(), collections.Counter()
    for before, it in zip(found, found[1:]):
        by_function[it.function] += it.made - before.made
        by_module[f"{it.function} {it.part}"] += it.made - before.made
    for table in (by_function, by_module):
        for what, passed in modules.largest(table, most):
            yield f"  {passed:6.1f}  {what}"
        yield ""
