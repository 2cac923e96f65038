#!/usr/bin/env python3
"""What a change of some crates costs, as `bin/test --price NAME ..` prints it, and proves nothing: the crates above them, their
minutes of processor time by tests/gate/costs.txt, the longest chain of crates that wait for each other, and the edits that are stale
then, as those of a crate whose contracts or definitions change are."""
import os
import sys

import costs  # noqa: E402
import crates  # noqa: E402
import edits  # noqa: E402


def on_the_way(kept, name):
    """The seconds that crates above one wait for: its proof, and what builds it."""
    return kept.of(name, "proof") + kept.of(name, "compilers")


def longest_chain(listed, kept, affected):
    """The crates of the longest chain among these, lowest first, and its seconds."""
    found = {}
    for name in affected:
        below = max((found[it] for it in listed[name].deps if it in found), default=(0.0, []))
        found[name] = below[0] + on_the_way(kept, name), [*below[1], name]
    return max(found.values())


def minutes(seconds):
    return f"{seconds / 60:.1f} minutes"


def price(listed, kept, names):
    """The price of a change of these crates, in lines."""
    affected = crates.above(listed, names)
    above = [it for it in affected if it not in names]
    yield f"crates above: {len(above)} of {len(listed)}{': ' if above else ''}{', '.join(above)}"
    by_kind = ", ".join(f"{kind} {sum(kept.of(it, kind) for it in affected) / 60:.1f}" for kind in costs.KINDS)
    own, whole = (sum(kept.of(it) for it in some) for some in (names, affected))
    every = sum(kept.of(it) for it in listed)
    share = f", {whole / every:.2f} of all crates" if every else ""
    yield f"processor: {minutes(whole)} ({by_kind}){share}; of these {minutes(own)} for {' '.join(names)} alone"
    seconds, chain = longest_chain(listed, kept, affected)
    yield f"longest chain: {minutes(seconds)}: {' > '.join(chain)}"
    lacking = [it for it in affected if kept.of(it) <= 0]
    if lacking:
        yield f"with no row in tests/gate/costs.txt, and not counted: {', '.join(lacking)}"
    own_edits = [it for name in names for it in edits.of_crate(listed[name])]
    in_gate = sum(it.is_in_gate() for it in own_edits)
    yield (f"edits to try then: {len(own_edits)} (bin/wrong {' '.join(names)}); the gate tries {in_gate} of them."
           f" Stale now: {len(edits.stale(own_edits))}")


def main(names):
    listed = crates.listed()
    unknown = [it for it in names if it not in listed]
    if unknown or not names:
        what = f"crates.txt lists no crate {', '.join(unknown)}" if unknown else "name a crate"
        print(f"bin/test --price: {what}", file=sys.stderr)
        return 2
    kept = costs.read(costs.KEPT)
    if kept is None:
        print("bin/test --price: there is no tests/gate/costs.txt", file=sys.stderr)
        return 2
    for line in price(listed, kept, [*dict.fromkeys(names)]):
        print(line)
    return 0


if __name__ == "__main__":
    sys.exit(main(sys.argv[1:]))
