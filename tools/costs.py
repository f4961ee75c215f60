#!/usr/bin/env python3
"""Says what makes the proofs of a crate long.

    costs.py sizes NAME     the sizes of what the prover makes of each function: a megabyte of `Lts` takes some two seconds. After a check of the crate
    costs.py drops NAME ..  what the functions of these crates drop, at how many places: by type, and by function. After `rt lib` of the crates
    costs.py anew NAME ..   what these crates prove of crates below them, in how many of them: a derived drop is proved in each crate that drops the type, a
                            written one in its own. After a check of the crates
    costs.py seconds NAME   checks the crate from nothing, by one process, and says which functions took how long, and which of their modules. `Proof` is
                            where goals are searched: one of more than three seconds wants a written answer

`--most N` shows so many rows. The libraries below have to be built.
"""
import argparse
import pathlib
import sys

sys.dont_write_bytecode = True
from costing import anew, drops, seconds, sizes

ROOT = pathlib.Path(__file__).resolve().parent.parent


def main():
    parser = argparse.ArgumentParser(description=__doc__.splitlines()[0])
    parser.add_argument("--most", type=int, default=25, metavar="N", help="how many rows to show")
    parser.add_argument("what", choices=["sizes", "drops", "anew", "seconds"])
    parser.add_argument("names", nargs="+", metavar="NAME")
    asked = parser.parse_args()
    tell = {"sizes": sizes.tell, "drops": drops.tell, "anew": anew.tell, "seconds": seconds.tell}[asked.what]
    for line in tell(ROOT, asked.names, asked.most):
        print(line)


if __name__ == "__main__":
    main()
