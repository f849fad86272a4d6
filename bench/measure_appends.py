#!/usr/bin/env python3
"""How long the built program takes for appends, and how much memory: 1,000 blocks of 32,768 bytes with 3 copies, against reading, copying
and decoding that script (hex_decode.rs, which rustc builds here); the cost of an append to a file of 100 blocks and of 4,096; and races of
16 writers by 4 workers, of large blocks and of small ones, against their replays.

measure_appends.py [TIMES]: each run TIMES times (3 if left out), the fastest counts.
"""
import pathlib
import subprocess
import sys
import tempfile

from measuring import HERE, MEBIBYTE, fastest, make, table


def decoder(room):
    built = pathlib.Path(room) / "hex_decode"
    subprocess.run(["rustc", "-O", "-o", built, HERE / "hex_decode.rs"], check=True)
    return built


def row(what, ran, of=None):
    ratio = f"{ran.processor / of.processor:.2f}" if of else ""
    return what, f"{ran.seconds:.3f} s", f"{ran.processor:.3f} s", ratio, f"{ran.memory / MEBIBYTE:.0f} MiB"


def measured(times):
    with tempfile.TemporaryDirectory() as room:
        large = make(room, "make_append_script.py", 1000, 32768, 1, 3)
        decoded = fastest(times, large, program=decoder(room))
        yield row("read, copy and decode 1,000 appends of 32,768 bytes", decoded)
        yield row("replay of these, with 3 copies", fastest(times, large, "replay"), decoded)
        few = fastest(times, make(room, "make_append_script.py", 100, 1, 1, 1), "replay")
        many = fastest(times, make(room, "make_append_script.py", 4096, 1, 1, 1), "replay")
        yield row("100 appends of a byte to one file", few)
        yield row("4,096 appends of a byte to one file", many)
        for appends, size in (1000, 32768), (62000, 100):
            writers = make(room, "make_append_script.py", appends, size, 16, 3)
            replayed = fastest(times, writers, "replay")
            raced = fastest(times, writers, "race", "--workers", "4")
            yield row(f"replay of 16 writers, {appends:,} appends of {size:,} bytes", replayed)
            yield row(f"race of these by 4 workers, {raced.seconds / replayed.seconds:.2f} of the replay's time", raced)


def main():
    times = int(sys.argv[1]) if len(sys.argv) > 1 else 3
    print(table(("Run", "Time", "Processor time", "Of decoding", "Peak memory"), *measured(times)))


main()
