#!/usr/bin/env python3
"""What an edit proves again: for each named crate, the crates that stand on it, and the lines of them and of the crate itself (code,
definitions and proofs). An edit that changes neither a contract nor a definition costs the crates above less than a first check.

proved_again.py [--at-most LINES] [NAME..]: all crates if left out, the dearest first, without the names of those above. With --at-most
it ends with 1 where one of them proves more lines again.
"""
import argparse
import sys

from crate_list import crates, lines_of


def main():
    words = argparse.ArgumentParser()
    words.add_argument("--at-most", type=int, metavar="LINES")
    words.add_argument("names", nargs="*", metavar="NAME")
    given = words.parse_args()
    below = crates()
    lines = {name: lines_of(name) for name in below}
    above = {name: [high for high in below if name in below[high]] for name in below}
    cost = {name: lines[name] + sum(lines[high] for high in above[name]) for name in below}
    for name in given.names:
        if name not in below:
            sys.exit(f"proved_again: crates.txt has no crate {name}")
        print(f"{name}: {cost[name]} lines in {1 + len(above[name])} crates, {lines[name]} of them its own; above it:", *above[name])
    if not given.names:
        for name in sorted(below, key=lambda name: -cost[name]):
            print(f"{cost[name]:6} lines in {1 + len(above[name]):2} crates  {name}, {lines[name]} of them its own")
    sys.exit(given.at_most is not None and any(cost[name] > given.at_most for name in given.names or below))


main()
