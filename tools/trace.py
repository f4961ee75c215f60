#!/usr/bin/env python3
"""Makes a picture of a trace of `kcp simulate` and its outcomes.

    trace.py TRACE OUTCOMES > page.html          a page without outside parts, 1,280 pixels wide
    trace.py --svg TRACE OUTCOMES > picture.svg  the picture alone

Lanes stand for the client, the server, each kind's link and informer, the work queue and each worker, as far as they are used; time goes down.
Where somebody acts on a revision that the server has passed, as a look or a publish, both are named: `looks at 3 of 5`. Steps one after another
that were not open, or that brought nothing, share a row. Beside it the page has the line that is hovered over or focused, what came of it, why it
was not open or what of it was not understood, and the objects after it: as the server has them, and as they are published. A key in the field
above leaves its steps alone.
"""
import argparse
import pathlib
import sys

sys.dont_write_bytecode = True
from tracing.page import page
from tracing.picture import rows_of, svg
from tracing.steps import NotOfTheTrace, read

def main():
    parser = argparse.ArgumentParser(description=__doc__.splitlines()[0])
    parser.add_argument("--svg", action="store_true", help="the picture alone")
    parser.add_argument("trace", type=pathlib.Path)
    parser.add_argument("outcomes", type=pathlib.Path)
    asked = parser.parse_args()
    try:
        steps = read(asked.trace.read_text(encoding="utf-8", errors="replace"), asked.outcomes.read_text(encoding="utf-8", errors="replace"))
    except (OSError, NotOfTheTrace) as error:
        sys.exit(f"trace.py: {error}")
    print(svg(rows_of(steps)[0]) if asked.svg else page(asked.trace.stem, steps))


if __name__ == "__main__":
    main()
