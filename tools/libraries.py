#!/usr/bin/env python3
"""Takes the libraries that `rt ci` proved in another clone, for each crate whose text is the same there, as is that of all that it uses: `rt check`
then begins with the first crate that differs.

    libraries.py CLONE LOG    LOG is what `rt ci` or the gate printed in CLONE: a crate of which it does not say 'proved' is not taken

The files are linked, not copied. `rt ci` gives its libraries no stamp, by which `rt` knows that they fit: it is computed here. A crate that differs
loses what it has, since it was built over other libraries. Check a change with `rt ci` before it is pushed: this only saves time on the way.
"""
import filecmp
import os
import pathlib
import re
import shutil
import sys

sys.dont_write_bytecode = True
ROOT = pathlib.Path(__file__).resolve().parent.parent
sys.path[:0] = [str(ROOT / ".ci"), str(ROOT / "conformance")]
import toolchain
from negative.pieces import libraries

PROVED = re.compile(r"^[ \d]*rt: (\w+) (?:proved|is kept)", re.MULTILINE)


def texts(folder):
    """Returns the paths of a crate's files below its folder, but of what was built."""
    return {file.relative_to(folder) for file in folder.rglob("*") if file.is_file() and "out" not in file.relative_to(folder).parts}


def has_same_text(one, other):
    """Returns whether the crates in two folders have the same files."""
    found = texts(one)
    return found == texts(other) and all(filecmp.cmp(one / file, other / file, shallow=False) for file in found)


def same(clone, proved):
    """Returns the crates that were proved in the other clone and are the same here, with all that they use, in the order of crates.txt."""
    found = {}
    for name, used in libraries().items():
        if name in proved and all(it in found for it in used if it in libraries()):
            if has_same_text(clone / "crates" / name, ROOT / "crates" / name):
                found[name] = True
    return list(found)


def take(clone, name):
    """Links the library of a crate."""
    shutil.rmtree(ROOT / "crates" / name / "out", ignore_errors=True)
    shutil.copytree(clone / "crates" / name / "out" / "rlib", ROOT / "crates" / name / "out" / "rlib", copy_function=os.link)


def stamp(crate):
    """Says that the library of a crate fits."""
    kept = pathlib.Path(crate.folder) / "out" / "rlib" / "stamp"
    kept.unlink(missing_ok=True)
    kept.write_text(crate.stamp(), encoding="utf-8")


def main():
    if len(sys.argv) != 3:
        sys.exit(__doc__)
    clone = pathlib.Path(sys.argv[1]).resolve()
    proved = set(PROVED.findall(pathlib.Path(sys.argv[2]).read_text(encoding="utf-8", errors="replace")))
    found = [name for name in same(clone, proved) if (clone / "crates" / name / "out" / "rlib").is_dir()]
    for name in libraries():
        if name in found:
            take(clone, name)
        else:
            shutil.rmtree(ROOT / "crates" / name / "out", ignore_errors=True)
    os.chdir(ROOT)
    rtlib, known = toolchain.load().rtlib, {}
    for name in found:
        folder = str(ROOT / "crates" / name)
        stamp(known.get(folder) or rtlib.Crate(folder, str(ROOT), known))
    print(f"{len(found)} libraries taken; to be proved here: {', '.join(name for name in libraries() if name not in found) or 'none'}")


if __name__ == "__main__":
    main()
