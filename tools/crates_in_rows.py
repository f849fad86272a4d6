#!/usr/bin/env python3
"""The crates in rows, read from crates.txt: each crate stands on crates of lower rows alone. On the right stand those of
which no other crate's code uses anything: the laws, and the small machine. Below the rows, the longest chain of crates that stand
on one another, by the number of crates and by the sum of their lines (code, definitions and proofs).

crates_in_rows.py [NAME..]: behind each named crate, the crates that it stands on directly.
"""
import re
import sys

from crate_list import TOP, crates, lines_of


def called():
    """Each crate of which another one's code uses an item."""
    files = [(path.parts[-3], path.read_text()) for path in TOP.glob("crates/*/src/*.rt")]
    return {name for name in crates() for other, text in files if other != name and re.search(rf"^(pub )?use {name}\b", text, re.M)}


def longest_chain(below, weight):
    """The crates of the chain whose weights sum highest, lowest first."""
    chains = {}

    def sum_of(chain):
        return sum(weight[name] for name in chain)

    # Those of a lower row stand earlier in this order.
    for name in sorted(below, key=lambda name: len(below[name])):
        chains[name] = max([chains[low] for low in below[name]], key=sum_of, default=[]) + [name]
    return max(chains.values(), key=sum_of, default=[])


def show_rows(below):
    used = called() | {"tect"}
    rows = {}
    for name in sorted(below, key=lambda name: len(below[name])):
        rows[name] = 1 + max([rows[low] for low in below[name]], default=0)
    code, laws = [
        {row: "  ".join(sorted(name for name in below if rows[name] == row and (name in used) == wanted)) for row in rows.values()}
        for wanted in (True, False)
    ]
    width = max(map(len, code.values())) + 2
    for row in sorted(code, reverse=True):
        print(f"{row:2}  {code[row]:{width}}{laws[row]}".rstrip())


def show_chains(below):
    lines = {name: lines_of(name) for name in below}
    print()
    print(f"{len(below)} crates, {sum(lines.values())} lines")
    for measure, weight in [("crates", dict.fromkeys(below, 1)), ("lines", lines)]:
        chain = longest_chain(below, weight)
        print(f"longest chain by {measure}: {len(chain)} crates, {sum(lines[name] for name in chain)} lines: {' '.join(chain)}")


def main():
    below = crates()
    for name in sys.argv[1:]:
        print(f"{name}:", *[low for low in below[name] if not any(low in below[other] for other in below[name])])
    if not sys.argv[1:]:
        show_rows(below)
        show_chains(below)


main()
