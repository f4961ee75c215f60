"""Loads the toolchain's `rt` as a module that computes the stamp of each crate once, and keeps the processors at work.

A stamp is a hash of a crate's files and of the stamps of all that it uses: `rt` asks for several in each proof. It computes them, and the
lists of the crates below, anew along every path through the graph of crates, which for `kcp` are 72,000 folders and 10 GB to be read for
one stamp, on the one thread that also starts the provers. Here a folder is read once, and again only where a file of it has changed. The
values are the same.

As many checks run side by side as there are processors and memory. `rt` reckons with two to four times the memory that they take, as
measured: by that, two of the late crates would fill a machine of 24 GB, and half of its four processors would wait.
"""
import hashlib
import importlib.machinery
import importlib.util
import os
import sys

sys.dont_write_bytecode = True
# What part of the memory that `rt` reckons with a check takes at most.
PART_OF_MEMORY = 0.5


def load():
    """Returns the module of `rt`, with what it computes of the graph of crates kept."""
    tool = next(folder for folder in map(os.path.dirname, found_on_path("rt")) if os.path.isfile(f"{folder}/rtlib.py"))
    loader = importlib.machinery.SourceFileLoader("toolchain_rt", f"{tool}/rt")
    module = importlib.util.module_from_spec(importlib.util.spec_from_loader("toolchain_rt", loader))
    sys.modules["toolchain_rt"] = module
    loader.exec_module(module)
    keep_below(module.rtlib.Crate)
    keep_stamps(module.rtlib)
    fill_lanes(module)
    return module


def found_on_path(name):
    """Returns the files of a name in the folders of PATH, links followed, the first one first."""
    files = [os.path.join(folder, name) for folder in os.environ["PATH"].split(os.pathsep)]
    return [os.path.realpath(file) for file in files if os.path.isfile(file)]


def keep_below(crate_type):
    """Has a crate compute the crates below it once: what crates.txt says does not change while a command runs."""
    compute, kept = crate_type.below, {}

    def below(self):
        if self.folder not in kept:
            kept[self.folder] = compute(self)
        return list(kept[self.folder])

    crate_type.below = below


def keep_stamps(rtlib):
    """Has a crate compute its stamp of its own files, read where one has changed, and of the stamps of what it uses, each once."""
    kept = {}

    def own_sum(crate):
        files = list(rtlib.files_of(crate.folder))
        states = [os.stat(file) for file in files]
        seen = repr((crate.said, crate.has_c)), tuple((file, it.st_mtime_ns, it.st_size) for file, it in zip(files, states))
        if kept.get(crate.folder, (None,))[0] != seen:
            found = hashlib.sha256(seen[0].encode())
            found.update(bytes_of(f"{rtlib.KIT}/WHAT"))
            for file in files:
                found.update(repr((file.replace(crate.folder, ""), bytes_of(file))).encode())
            kept[crate.folder] = seen, found
        return kept[crate.folder][1].copy()

    def stamp(self, known=None):
        known = {} if known is None else known
        if self.folder not in known:
            found = own_sum(self)
            found.update(repr([stamp(dep, known) for dep in self.deps]).encode())
            known[self.folder] = found.hexdigest()
        return known[self.folder]

    rtlib.Crate.stamp = stamp


def fill_lanes(rt):
    """Has the lanes of `rt` filled, as far as memory lasts by what checks take."""
    need = rt.need
    rt.need = lambda crate: PART_OF_MEMORY * need(crate)


def bytes_of(file):
    with open(file, "rb") as it:
        return it.read()
