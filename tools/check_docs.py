#!/usr/bin/env python3
"""Whether what the documents name is there: crates, files, calls, must-fail edits, tests, cases, and tools; and whether
docs/architecture.md names each crate, and docs/reference.md each case. It ends with 1 where something is not.

check_docs.py
"""
import re
import sys

from crate_list import TOP, crates

PAGES = [TOP / "README.md", TOP / "bench/README.md", TOP / "tools/README.md", *sorted(TOP.glob("docs/*.md"))]
ENDINGS = ("", ".rt", ".antt", ".edit")


def codes(text):
    """What stands between backticks."""
    return re.findall(r"`([^`\n]+)`", text)


def is_file(name):
    return any((TOP / f"{name}{ending}").exists() for ending in ENDINGS)


def sources(crate):
    return "\n".join(path.read_text() for path in (TOP / "crates" / crate / "src").rglob("*.rt"))


def lost_files(page, known):
    """Paths of crates (`CRATE/specs/File`, or `CRATE/EDIT` for an edit), and of tools, cases and measures; and definitions as
    `CRATE`: File, File."""
    for code in codes(page.read_text()):
        crate, _, rest = code.partition("/")
        if re.fullmatch(r"[a-z_]+/\w[\w/.]*", code) and crate in known:
            if not is_file(f"crates/{code}") and not is_file(f"crates/{crate}/must-fail/{rest}"):
                yield code
        elif re.fullmatch(r"(tools|bench|docs|cases|examples)/[\w./-]+", code.split()[0]) and not is_file(code.split()[0]):
            if not is_file(f"{code.split()[0]}.script"):
                yield code
    for crate, names in re.findall(r"`([a-z_]+)`: ([A-Z]\w+(?:, [A-Z]\w+)*)", page.read_text()):
        yield from (f"{crate}: {name}" for name in names.split(", ") if crate in known and not is_file(f"crates/{crate}/specs/{name}"))


def lost_crates(page, known):
    """`CRATE/..` and `CRATE::..` of a crate that is not there."""
    others = {"std", "core", "cases", "examples", "tools", "docs", "bench", "out", "crates"}
    for code in codes(page.read_text()):
        found = re.match(r"([a-z]\w+)(?:::\w|/(?:specs|src|proofs|must-fail)\b|/[a-z0-9_]+$)", code)
        if found and found[1] not in known and found[1] not in others:
            yield code


def lost_calls(page, known):
    """Calls as `CRATE::call` and `CRATE::Type::call`; and tests, as `TEST` of `CRATE`."""
    text = page.read_text()
    for code in codes(text):
        crate, _, rest = code.partition("::")
        if crate in known and rest and not re.search(rf"\b(fn|struct|enum|trait|const) {rest.split('::')[-1]}\b", sources(crate)):
            yield code
    for test, crate in re.findall(r"`([a-z0-9_]+)` of `([a-z0-9_]+)`", text):
        if crate in known and "_" in test and f"fn {test}" not in sources(crate):
            yield f"{test} of {crate}"


def lost_cases():
    """Cases that the last column of a table of docs/reference.md names and that are not there, and cases that no row names."""
    text = (TOP / "docs/reference.md").read_text()
    cases = {path.stem for folder in ("cases", "examples") for path in (TOP / folder).glob("*.status")}
    named = {code for line in text.splitlines() if line.startswith("|") for code in codes(line.rsplit("|", 2)[1])}
    yield from sorted(f"{name} (no such case)" for name in named - cases if re.fullmatch(r"[a-z0-9]+(-[a-z0-9]+)+", name))
    yield from sorted(f"{name} (a case that no row names)" for name in cases - set(codes(text)))


def main():
    known = crates()
    lost = [(page, name) for page in PAGES for find in (lost_files, lost_crates, lost_calls) for name in find(page, known)]
    lost += [(TOP / "docs/reference.md", name) for name in lost_cases()]
    architecture = set(codes((TOP / "docs/architecture.md").read_text()))
    lost += [(TOP / "docs/architecture.md", f"{name} (a crate that it does not name)") for name in known if name not in architecture]
    for page, name in lost:
        print(f"{page.relative_to(TOP)}: {name}")
    print(f"{len(PAGES)} pages: {len(lost)} names of what is not there" if lost else f"{len(PAGES)} pages: all that they name is there")
    sys.exit(bool(lost))


main()
