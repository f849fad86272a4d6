#!/usr/bin/env python3
"""How many edits that the check must refuse (must-fail/*.edit) and how many tests there are, by crate and in all, and each edit that
is none of code: one of a definition or a proof shows nothing of a contract. It ends with 1 where there is one.

edits_and_tests.py [NAME..]: of these crates alone.
"""
import re
import sys

from crate_list import TOP, crates


def edits_of(name):
    """Each edit of the crate, and the files that it changes."""
    paths = sorted((TOP / "crates" / name / "must-fail").glob("*.edit"))
    return [(path, re.findall(r"^file: *(\S+)", path.read_text(errors="replace"), re.M)) for path in paths]


def tests_of(name):
    return sum(path.read_text().count("#[test]") for path in (TOP / "crates" / name).rglob("*.rt") if "out" not in path.parts)


def main():
    names = sys.argv[1:] or list(crates())
    edits = {name: edits_of(name) for name in names}
    tests = {name: tests_of(name) for name in names}
    for name in names:
        if edits[name] or tests[name]:
            print(f"{len(edits[name]):3} edits {tests[name]:3} tests  {name}")
    print(f"{sum(map(len, edits.values())):3} edits {sum(tests.values()):3} tests  in all")
    others = [path for name in names for path, files in edits[name] if any(not file.startswith("src/") for file in files)]
    for path in others:
        print(f"none of code: {path.relative_to(TOP)}")
    sys.exit(bool(others))


main()
