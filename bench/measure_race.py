#!/usr/bin/env python3
"""How long a race's workers take, apart from reading the script and gathering what they did, and how much memory a race takes.

measure_race.py [LINES [TIMES]] (60,000 and 5 if left out): a script of make_race_script.py, 16 clients in directories of their own over 16
name and 16 file shards, raced by 1, 2 and 4 workers in turn, TIMES times each. thread_time.c, preloaded, tells how long the program had
threads of its own, from the start of the first to the end of the last, and the processor time of the busiest of them, which is what the workers would
take if none waited for another. A race by one worker starts no thread; so one worker is measured by two, the second of which has nothing to do but one look
for each of 16 more clients: clients are dealt to workers by their number in turn. The fastest run counts, and the median is shown beside it.

How much a transaction takes is seen by two scripts, of as many looks at a name each, which differ by one transaction of each look: the
difference of their peaks. It is kept by its shard and by its client; the one list of a race borrows it. What a dump costs, at which all
workers end, is seen by a script of many dumps.
"""
import pathlib
import statistics
import subprocess
import sys
import tempfile
from typing import NamedTuple

from measuring import HERE, MEBIBYTE, PROGRAM, fastest, make, run, table, write

WORKERS = (1, 2, 4)


def preloaded(room):
    shim = pathlib.Path(room) / "thread_time.so"
    subprocess.run(["cc", "-shared", "-fPIC", "-O2", "-o", shim, HERE / "thread_time.c", "-ldl"], check=True)
    return str(shim)


class Workers(NamedTuple):
    """Seconds of the workers together, of the busiest one's processor time, and of all their processor time."""

    seconds: float
    busiest: float
    all: float


def workers_of(ran):
    return Workers(*(int(word) / 1e9 for word in ran.said.split()[-3:]))


def entries(script):
    """The transactions of the script's commands, with a begin and an end for each command."""
    with open(script, "rb") as source:
        lines = subprocess.run([PROGRAM, "replay"], stdin=source, capture_output=True, check=True).stdout.decode().splitlines()
    return sum(int(line.split()[2]) + 2 for line in lines if line != "end")


def beside_idle(room, script):
    """The same script, with a client that only looks at the root behind the first line of each client, so that every second client is idle."""
    with open(script) as source:
        store, *lines = source.read().splitlines(keepends=True)
    seen, padded = set(), [store]
    for line in lines:
        padded.append(line)
        client = line.split()[0]
        if client not in seen:
            seen.add(client)
            padded.append(f"idle{len(seen)} look /\n")
    return write(room, "beside-idle", "".join(padded))


def measured(room, script, shim, times):
    raced = {1: (beside_idle(room, script), 2), **{count: (script, count) for count in WORKERS[1:]}}
    runs = {count: [] for count in WORKERS}
    for _ in range(times):
        for count, (lines, workers) in raced.items():
            runs[count].append(run(lines, "race", "--workers", str(workers), LD_PRELOAD=shim))
    alone = fastest(times, script, "race", "--workers", "1")
    first = None
    for count in WORKERS:
        work = [workers_of(ran) for ran in runs[count]]
        own = Workers(*map(min, zip(*work)))
        median = statistics.median(ran.seconds for ran in work)
        first = first or (own, median)
        memory = max(ran.memory for ran in runs[count])
        yield (
            count,
            f"{alone.seconds if count == 1 else min(ran.seconds for ran in runs[count]):.3f} s",
            f"{own.seconds:.3f} s",
            f"{own.seconds / first[0].seconds:.2f}",
            f"{median:.3f} s",
            f"{median / first[1]:.2f}",
            f"{own.busiest:.3f} s",
            f"{memory / MEBIBYTE:.0f} MiB",
            f"{memory / entries(script):.0f}",
        )


def looks(room, lines, name):
    """16 clients, each with a directory, look at it or into it."""
    homes = "".join(f"c{at} mkdir /home{at}\n" for at in range(1, 17))
    return write(room, f"looks{len(name)}", "store 16 16 1 3 3\n" + homes + "".join(f"c{at % 16 + 1} look /home{at % 16 + 1}{name}\n" for at in range(lines)))


def bytes_of_transaction(room, lines):
    short, long = looks(room, lines, ""), looks(room, lines, "/file")
    for words, kept in [(("replay",), 2), (("race", "--workers", "4"), 2)]:
        more = (run(long, *words).memory - run(short, *words).memory) / lines
        yield f"`tect {' '.join(words)}`", f"{more:.0f}", kept, f"{more / kept:.0f}"


def dumps(room, count):
    """A look of one of four clients, and a dump, and so on."""
    return write(room, "dumps", "store 1 1 1 3 3\n" + "".join(f"c{at % 4 + 1} look /\ndump\n" for at in range(count)))


def seconds_of_dumps(room, count, times):
    script = dumps(room, count)
    for words in [("replay",), *(("race", "--workers", str(workers)) for workers in (1, 4, 64))]:
        yield f"`tect {' '.join(words)}`", f"{fastest(times, script, *words).seconds:.3f} s"


def main():
    lines, times = [int(word) for word in sys.argv[1:]] + [60000, 5][len(sys.argv) - 1 :]
    with tempfile.TemporaryDirectory() as room:
        script = make(room, "make_race_script.py", lines)
        head = "Workers", "Whole time", "The workers", "Of one's", "Median", "Of one's", "Processor time of the busiest", "Peak memory", "Of it for an entry, bytes"
        print(f"A race of {lines:,} lines, {entries(script):,} entries of history (transactions, begins and ends):\n")
        print(table(head, *measured(room, script, preloaded(room), times)))
        print(table(("Mode", "Bytes of a transaction", "Times that it is kept", "Bytes each time"), *bytes_of_transaction(room, lines)))
        print(table(("1,000 dumps, each behind one look", "Time"), *seconds_of_dumps(room, 1000, times)))


main()
