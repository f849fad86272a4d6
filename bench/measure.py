#!/usr/bin/env python3
"""How long the built program replays scripts of 1,000, 10,000 and 60,000 lines, and the largest scripts that there may be: one of
comments, and one of looks with long paths. And how much memory it takes.

measure.py [TIMES]: each script TIMES times (5 if left out), the fastest counts. Lines a second and the cost of a line are those of processor
time, which other programs disturb less; the start of the program is measured by a script of no commands, and taken off them.
"""
import sys
import tempfile

from measuring import MEBIBYTE, fastest, make, table, write

SIZES = [1000, 10000, 60000]
STORE = "store 4 4 1 3 3\n"
MOST_LINES = 65536
MOST_BYTES = 67108864


def comments():
    """As many bytes as a script may have, and as many lines, all but the first of them comments."""
    line = "#" + "x" * (MOST_BYTES // MOST_LINES - 2) + "\n"
    rest = MOST_BYTES - len(STORE) - len(line) * (MOST_LINES - 2)
    return STORE + line * (MOST_LINES - 2) + "#" + "x" * (rest - 2) + "\n"


def looks():
    """As many lines as a script may have, each a look with a path of four long names, by 16 clients in turn."""
    path = "/" + "/".join(["n" * 240] * 4)
    return STORE + "".join(f"c{at % 16 + 1} look {path}\n" for at in range(MOST_LINES - 1))


def row(what, ran, lines, start, first):
    line = (ran.processor - start) / lines
    return what, f"{ran.seconds:.3f} s", f"{ran.processor:.3f} s", f"{1 / line:,.0f}", f"{line / (first or line):.2f}", f"{ran.memory / MEBIBYTE:.0f} MiB"


def measured(times):
    with tempfile.TemporaryDirectory() as room:
        start = fastest(times, write(room, "empty", STORE), "replay").processor
        first = None
        for size in SIZES:
            ran = fastest(times, make(room, "make_script.py", size), "replay")
            first = first or (ran.processor - start) / size
            yield row(f"{size:,} lines", ran, size, start, first)
        for name, text in [("comments", comments()), ("looks", looks())]:
            ran = fastest(times, write(room, name, text), "replay")
            yield row(f"{MOST_LINES:,} lines, {len(text):,} bytes of {name}", ran, MOST_LINES, start, first)


def main():
    times = int(sys.argv[1]) if len(sys.argv) > 1 else 5
    print(table(("Replay", "Time", "Processor time", "Lines a second", "Cost of a line, of one of 1,000", "Peak memory"), *measured(times)))


main()
