"""How large what the prover makes of each function is."""
import collections

from costing import modules


def tell(root, names, most):
    """Yields the megabytes of each crate, and of its largest functions."""
    for name in names:
        by_function = collections.Counter()
        for it in modules.read(root / "crates" / name / "out" / "incremental"):
            if it.part == "Lts":
                by_function[it.function] += it.size
        yield f"{name}: {by_function.total() / 1e6:.1f} MB of Lts in {len(by_function)} functions"
        for function, size in modules.largest(by_function, most):
            yield f"  {size / 1e6:6.2f}  {function}"
