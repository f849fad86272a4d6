#!/usr/bin/env python3
"""The files that the contract of the program's public call rests on: those that the clauses of a file cite, those that these cite,
and so on, with their lines. Of code they are the files that declare a type or a constant.

files_to_read.py [FILE]: FILE is crates/tect_app/src/top.rt where none is named.
"""
import pathlib
import re
import sys

TOP = pathlib.Path(__file__).resolve().parent.parent
CRATES = TOP / "crates"
CITED = re.compile(r"\bRattle\.(\w+)\.specs\.([\w.]+)")


def file_of(crate, path):
    """The file of the repository that a cited name stands in, if it stands in one."""
    words = path.split(".")
    if words[0] in ("declared", "contracts"):
        words = words[1:]
        for length in range(len(words), 0, -1):
            file = CRATES / crate / "src" / ("/".join(words[:length]) + ".rt")
            if file.exists():
                return file
        root = CRATES / crate / "src" / "lib.rt"
        return root if root.exists() else None
    for length in range(len(words), 0, -1):
        file = CRATES / crate / "specs" / ("/".join(words[:length]) + ".antt")
        if file.exists():
            return file
    return None


def cited_by(file):
    """What a file of definitions cites; of a file of code the models of its types alone."""
    text = file.read_text()
    return {found for crate, path in CITED.findall(text) if (found := file_of(crate, path)) and found != file}


def main():
    start = (TOP / sys.argv[1]) if sys.argv[1:] else CRATES / "tect_app" / "src" / "top.rt"
    seen, left = {start}, [start]
    while left:
        file = left.pop()
        if file.suffix == ".rt" and file != start:
            continue
        for found in sorted(cited_by(file)):
            if found not in seen:
                seen.add(found)
                left.append(found)
    by_crate = {}
    for file in seen:
        by_crate.setdefault(file.relative_to(CRATES).parts[0], []).append(file)
    lines = {file: len(file.read_text().splitlines()) for file in seen}
    for crate in sorted(by_crate):
        files = sorted(by_crate[crate])
        print(f"{crate}: {sum(lines[file] for file in files)} lines")
        for file in files:
            print(f"    {lines[file]:4}  {file.relative_to(CRATES / crate)}")
    print(f"{len(seen)} files, {sum(lines.values())} lines; the longest file of definitions has "
          f"{max(lines[file] for file in seen if file.suffix == '.antt')}")


main()
