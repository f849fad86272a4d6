"""What the measures share: the built program, scripts that are made, and one run with its time and its memory."""
import os
import pathlib
import subprocess
import sys
import tempfile
import time
from typing import NamedTuple

HERE = pathlib.Path(__file__).resolve().parent
PROGRAM = HERE.parent / "crates/tect/out/tect"
MEBIBYTE = 2**20


class Run(NamedTuple):
    """Seconds of the whole run, its processor time, its peak memory in bytes, and what it wrote on standard error."""

    seconds: float
    processor: float
    memory: int
    said: str


def run(script, *words, program=PROGRAM, **environment):
    """One run of the program over that script; its report is thrown away."""
    if not program.exists():
        sys.exit(f"no program at {program}: run ./tect replay < examples/first.script first")
    with open(script, "rb") as source, tempfile.TemporaryFile() as errors:
        start = time.perf_counter()
        process = subprocess.Popen([program, *words], stdin=source, stdout=subprocess.DEVNULL, stderr=errors, env={**os.environ, **environment})
        _, status, usage = os.wait4(process.pid, 0)
        seconds = time.perf_counter() - start
        errors.seek(0)
        said = errors.read().decode()
    if status != 0:
        sys.exit(f"{' '.join(words)} over {script}: status {status}")
    return Run(seconds, usage.ru_utime + usage.ru_stime, usage.ru_maxrss * 1024, said)


def fastest(times, script, *words, program=PROGRAM):
    """The least time, processor time and memory of so many runs."""
    runs = [run(script, *words, program=program) for _ in range(times)]
    return Run(min(ran.seconds for ran in runs), min(ran.processor for ran in runs), min(ran.memory for ran in runs), "")


def make(room, maker, *numbers):
    """The path of a script that make_script.py or make_race_script.py writes."""
    path = os.path.join(room, "-".join([maker, *map(str, numbers)]))
    with open(path, "wb") as script:
        subprocess.run([HERE / maker, *map(str, numbers)], stdout=script, check=True)
    return path


def write(room, name, text):
    path = os.path.join(room, name)
    with open(path, "w") as script:
        script.write(text)
    return path


def table(*rows):
    """A table in Markdown; the first row is its head."""
    head, *rest = [f"| {' | '.join(map(str, row))} |" for row in rows]
    return "\n".join([head, "|---" * len(rows[0]) + "|", *rest, ""])
