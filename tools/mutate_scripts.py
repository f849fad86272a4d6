#!/usr/bin/env python3
"""Runs the built program on mutated scripts.

Each script is one of cases/ with one to four changes: a flipped bit, a run of bytes cut out, a run doubled, bytes put in, or a
line doubled. The program replays each twice; it has to end with status 0, 3 or 8, and with the same output both times. Then it races
each by 4 workers; that has to end with the same status, and, where it is not 0, with the same output. The last lines tell how many scripts
ended with each status. A script that breaks the rule is kept, and its path is printed.

Script number I of a seed is always the same, whatever the count of scripts and of processes.
"""

import argparse
import collections
import multiprocessing
import os
import pathlib
import random
import signal
import sys
import tempfile

TOP = pathlib.Path(__file__).resolve().parent.parent
PROGRAM = TOP / "crates/tect/out/tect"
ALLOWED = {0, 3, 8}
SECONDS = 20
# Bytes that mean something in a script.
TELLING = b" \n#/0123456789abcdefxyz\x00\x7f\xff"


def flip(rng, text):
    if text:
        text[rng.randrange(len(text))] ^= 1 << rng.randrange(8)


def run_of_bytes(rng, text):
    start = rng.randrange(len(text) + 1)
    return start, min(len(text), start + rng.choice((1, 1, 2, 5, 20, 100)))


def cut(rng, text):
    start, end = run_of_bytes(rng, text)
    del text[start:end]


def double(rng, text):
    start, end = run_of_bytes(rng, text)
    text[start:start] = text[start:end]


def insert(rng, text):
    at = rng.randrange(len(text) + 1)
    if rng.random() < 0.7:
        text[at:at] = bytes(rng.choices(TELLING, k=rng.choice((1, 1, 1, 2, 8, 300))))
    else:
        text[at:at] = rng.randbytes(rng.choice((1, 1, 4)))


def double_line(rng, text):
    lines = text.splitlines(keepends=True)
    if lines:
        lines.insert(rng.randrange(len(lines) + 1), rng.choice(lines))
        text[:] = b"".join(lines)


CHANGES = (flip, cut, double, insert, double_line)


def mutated(scripts, seed, number):
    rng = random.Random(f"{seed} {number}")
    text = bytearray(rng.choice(scripts))
    for _ in range(rng.choice((1, 1, 1, 2, 2, 3, 4))):
        rng.choice(CHANGES)(rng, text)
    return bytes(text)


class Runner:
    """Runs the program on one script after another, over two files of its own."""

    def __init__(self, program, room):
        self.program = str(program)
        self.input = os.path.join(room, f"input-{os.getpid()}")
        self.output = os.path.join(room, f"output-{os.getpid()}")
        self.files = [
            (os.POSIX_SPAWN_OPEN, 0, self.input, os.O_RDONLY, 0),
            (os.POSIX_SPAWN_OPEN, 1, self.output, os.O_WRONLY | os.O_CREAT | os.O_TRUNC, 0o600),
            (os.POSIX_SPAWN_OPEN, 2, os.devnull, os.O_WRONLY, 0),
        ]
        self.child = 0
        signal.signal(signal.SIGALRM, lambda _signal, _frame: os.kill(self.child, signal.SIGKILL))

    def write(self, script):
        with open(self.input, "wb") as file:
            file.write(script)

    def run(self, *words):
        """The status and the output; a status below 0 is a signal's number, that of SIGKILL where it took too long."""
        self.child = os.posix_spawn(self.program, [self.program, *words], os.environ, file_actions=self.files)
        signal.alarm(SECONDS)
        _, ended = os.waitpid(self.child, 0)
        signal.alarm(0)
        with open(self.output, "rb") as file:
            return os.waitstatus_to_exitcode(ended), file.read()


def is_alike(replayed, raced):
    """A script that is no plan ends alike in both modes; a race of a plan may tell other answers."""
    return raced[0] == replayed[0] and (raced[0] == 0 or raced[1] == replayed[1])


def try_scripts(job):
    scripts, program, room, seed, numbers = job
    runner = Runner(program, room)
    statuses = collections.Counter()
    broken = []
    for number in numbers:
        script = mutated(scripts, seed, number)
        runner.write(script)
        first = runner.run("replay")
        second = runner.run("replay")
        raced = runner.run("race", "--workers", "4")
        statuses[first[0]] += 1
        if first[0] not in ALLOWED or first != second or not is_alike(first, raced):
            path = os.path.join(tempfile.gettempdir(), f"tect-mutated-{seed}-{number}.script")
            pathlib.Path(path).write_bytes(script)
            broken.append((number, first[0], second[0], first == second, raced[0], path))
    return statuses, broken


def parsed_words():
    parser = argparse.ArgumentParser(description=__doc__, formatter_class=argparse.RawDescriptionHelpFormatter)
    parser.add_argument("count", nargs="?", type=int, default=100_000, help="how many scripts (100000)")
    parser.add_argument("--seed", type=int, default=1)
    parser.add_argument("--jobs", type=int, default=os.cpu_count(), help="how many processes side by side")
    parser.add_argument("--program", type=pathlib.Path, default=PROGRAM)
    return parser.parse_args()


def main():
    words = parsed_words()
    if not os.access(words.program, os.X_OK):
        sys.exit(f"{words.program} is not built: run ./tect once, or rt ci")
    scripts = [path.read_bytes() for path in sorted((TOP / "cases").glob("*.script"))]
    with tempfile.TemporaryDirectory(dir="/dev/shm" if os.access("/dev/shm", os.W_OK) else None) as room:
        numbers = range(words.count)
        chunks = [numbers[start : start + 500] for start in range(0, words.count, 500)]
        jobs = [(scripts, words.program, room, words.seed, chunk) for chunk in chunks]
        statuses = collections.Counter()
        broken = []
        with multiprocessing.Pool(words.jobs) as pool:
            for some, wrong in pool.imap_unordered(try_scripts, jobs):
                statuses.update(some)
                broken.extend(wrong)
    for number, first, second, same, raced, path in sorted(broken):
        outputs = "same output" if same else "results differ"
        print(f"script {number}: status {first}, then {second}, {outputs}, raced {raced}: {path}")
    for status, count in sorted(statuses.items()):
        print(f"status {status}: {count}")
    print(f"mutated scripts: {words.count - len(broken)} passed, {len(broken)} failed")
    sys.exit(bool(broken) or not words.count)


if __name__ == "__main__":
    main()
