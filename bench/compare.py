#!/usr/bin/env python3
"""The same commands through a plain store in Rust, SQLite in memory and plain files in a RAM file system, beside tect.

compare.py [LINES [TIMES]] (60,000 and 3 if left out): a script of make_race_script.py. Each way TIMES times, the fastest counts.
The plain store (plain_store.rs) reads the script and writes the same answers; it is made by rustc, and left out where there is none.
What it leaves out: SQLite and the files do the commands one after another, by one caller, with no shards, no history of transactions
and no client that may stop in between; SQLite has each command as one transaction of its own, and its text is parsed once for each kind of command;
the files are made, looked up, renamed and removed by system calls. Both are called from Python, whose own share is measured by a run
that only goes over the commands, and taken off. tect reads the script, and writes all answers.
"""
import os
import pathlib
import shutil
import sqlite3
import subprocess
import sys
import tempfile
import time
from typing import NamedTuple

from measuring import HERE, MEBIBYTE, PROGRAM, fastest, make, table

RAM = "/dev/shm"
FOLDER_IS_THERE = "where exists (select 1 from entry where path = ?3 and kind = 'dir')"


def commands(script):
    with open(script) as lines:
        for line in lines:
            words = line.split()
            if words[0] != "store":
                yield words[1], words[2], words[3] if len(words) > 3 else None


def nothing(_):
    return lambda verb, path, new: None


def sqlite(_):
    """A table of names, keyed by their whole path."""
    base = sqlite3.connect(":memory:", isolation_level=None)
    base.execute("create table entry (path text primary key, kind text, id integer) without rowid")
    base.execute("insert into entry values ('/', 'dir', 1)")
    numbers = iter(range(2, 1 << 40))

    def do(verb, path, new):
        if verb == "create":
            base.execute(f"insert or replace into entry select ?1, 'file', ?2 {FOLDER_IS_THERE}", (path, next(numbers), path[: path.rindex("/")] or "/"))
        elif verb == "mkdir":
            base.execute(f"insert or ignore into entry select ?1, 'dir', ?2 {FOLDER_IS_THERE}", (path, next(numbers), path[: path.rindex("/")] or "/"))
        elif verb == "look":
            base.execute("select kind, id from entry where path = ?", (path,)).fetchone()
        elif verb == "rename":
            base.execute("update or replace entry set path = ?2 where path = ?1", (path, new))
        elif verb == "delete":
            base.execute("delete from entry where path = ? and kind = 'file'", (path,))

    return do


def files(room):
    def do(verb, path, new):
        path = room + path
        try:
            if verb == "create":
                os.close(os.open(path, os.O_CREAT | os.O_TRUNC | os.O_WRONLY))
            elif verb == "mkdir":
                os.mkdir(path)
            elif verb == "look":
                os.stat(path)
            elif verb == "rename":
                os.rename(path, room + new)
            elif verb == "delete":
                os.unlink(path)
        except OSError:
            pass

    return do


class Took(NamedTuple):
    seconds: float
    processor: float


def took(kind, work):
    room = tempfile.mkdtemp(dir=RAM if os.path.isdir(RAM) else None)
    try:
        do = kind(room)
        start, busy = time.perf_counter(), time.process_time()
        for verb, path, new in work:
            do(verb, path, new)
        return Took(time.perf_counter() - start, time.process_time() - busy)
    finally:
        shutil.rmtree(room)


def least(runs):
    return Took(*map(min, zip(*runs)))


def plain_store(script, room):
    """The program of plain_store.rs, which has to write what tect writes; None where there is no rustc."""
    if not shutil.which("rustc"):
        return None
    plain = pathlib.Path(room) / "plain_store"
    subprocess.run(["rustc", "-O", "-o", plain, HERE / "plain_store.rs"], check=True)
    with open(script, "rb") as source:
        theirs = subprocess.run([plain], stdin=source, stdout=subprocess.PIPE, check=True).stdout
    with open(script, "rb") as source:
        ours = subprocess.run([PROGRAM, "replay"], stdin=source, stdout=subprocess.PIPE, check=True).stdout
    if theirs != ours:
        sys.exit(f"the plain store's answers to {script} are not tect's")
    return plain


def measured(script, times, plain):
    work = [*commands(script)]
    idle = least(took(nothing, work) for _ in range(times))
    own = fastest(times, script, "replay")

    def row(name, seconds, processor, memory=None):
        peak = f"{memory / MEBIBYTE:.0f} MiB" if memory else ""
        return name, f"{seconds:.3f} s", f"{seconds / own.seconds:.2f}", f"{processor:.3f} s", f"{processor / own.processor:.2f}", peak

    yield row("`tect replay`", own.seconds, own.processor, own.memory)
    if plain:
        ran = fastest(times, script, program=plain)
        yield row("a plain store in Rust", ran.seconds, ran.processor, ran.memory)
    for name, kind in [("SQLite in memory", sqlite), ("files in RAM", files)]:
        ran = least(took(kind, work) for _ in range(times))
        yield row(name, ran.seconds - idle.seconds, ran.processor - idle.processor)
    for workers in (1, 2, 4):
        ran = fastest(times, script, "race", "--workers", str(workers))
        yield row(f"`tect race --workers {workers}`", ran.seconds, ran.processor, ran.memory)


def main():
    lines, times = [int(word) for word in sys.argv[1:]] + [60000, 3][len(sys.argv) - 1 :]
    with tempfile.TemporaryDirectory() as room:
        print(f"{lines:,} lines, six of ten create, two look, one renames, one deletes:\n")
        script = make(room, "make_race_script.py", lines)
        head = ("Way", "Time", "Of replay's", "Processor time", "Of replay's", "Peak memory")
        print(table(head, *measured(script, times, plain_store(script, room))))


main()
