"""Libraries that are loaded before the C library, and stand in the place of some of its functions."""
import pathlib
import subprocess


def built(source, folder):
    """Returns the library of a C file, built in a folder."""
    library = pathlib.Path(folder) / f"{pathlib.Path(source).stem}.so"
    subprocess.run(["cc", "-O2", "-shared", "-fPIC", "-o", library, source], check=True)
    return library
