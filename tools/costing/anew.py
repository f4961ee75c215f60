"""What crates prove anew of those below them."""
import collections

from costing import modules


def tell(root, names, most):
    """Yields the megabytes of what these crates prove of crates below them, and of each such function those and in how many crates it is proved."""
    sizes, crates, whole = collections.Counter(), collections.defaultdict(set), 0
    for name in names:
        for it in modules.read(root / "crates" / name / "out" / "incremental"):
            if it.part == "Lts":
                whole += it.size
                owner, mark, _ = it.function.partition("++")
                if mark and owner != name:
                    sizes[it.function] += it.size
                    crates[it.function].add(name)
    yield f"{sizes.total() / 1e6:.1f} of {whole / 1e6:.1f} MB of Lts are of crates below"
    for function, size in modules.largest(sizes, most):
        yield f"  {size / 1e6:6.2f}  {len(crates[function]):3}  {function}"
