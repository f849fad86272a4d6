#!/usr/bin/env python3
"""Races random scripts of many clients on few names, often, with 1, 2, 4 and 8 workers: each race has to end, with status 0, so that what
the clients kept and what the shards kept is one history.

race_often.py [TIMES [SEED]] (200 and 1 if left out): TIMES scripts, each raced by 1, 2, 4 and 8 workers. Of each output it is looked at that
it has just the answers that the script asks for, each client's in its order, and that what the last dump shows hangs together: each
entry's file or directory is there and has a hold, and no two entries lead to the same. By one worker the output is the same twice.
It ends with 1 at the first race that fails, and prints its script and its output. Further it tells how many scripts had other outputs by other counts
of workers, which is no fault: those are the races in which clients truly met.
"""
import os
import random
import subprocess
import sys

PROGRAM = os.path.join(os.path.dirname(os.path.abspath(__file__)), "..", "tect")
CLIENTS = 12
NAMES = "abc"
VERBS = ["look", "list", "create", "create", "mkdir", "delete", "rename", "rename", "open", "append", "append", "blocks", "read", "seal"]
WORKERS = (1, 2, 4, 8)
SECONDS = 120


def command(choose):
    folder = choose.choice(["", "", "/a", "/b"])
    verb = choose.choice(VERBS)
    old = f"{folder}/{choose.choice(NAMES)}"
    if verb == "seal" and choose.randrange(8):
        verb = "look"
    return f"{verb} {old}" + {"rename": f" {folder}/{choose.choice(NAMES)}", "append": f" {choose.randbytes(3).hex()}"}.get(verb, "")


def script(choose):
    """How many commands each client begins, and the text. One or two of the clients stop in the middle of a command."""
    lines = ["store %d %d 1 3 3" % (choose.randrange(1, 5), choose.randrange(1, 5))]
    begun = {f"c{number}": 0 for number in range(1, CLIENTS + 1)}
    live = [*begun]
    for _ in range(choose.randrange(200, 600)):
        client = choose.choice(live)
        if choose.randrange(60) == 0:
            lines.append("dump")
            continue
        begun[client] += 1
        if choose.randrange(4):
            lines.append(f"{client} {command(choose)}")
            continue
        stops = len(live) > CLIENTS - 2 and choose.randrange(20) == 0
        lines += [f"{client} begin {command(choose)}", f"{client} step {choose.randrange(1, 4)}", f"{client} {'stop' if stops else 'run'}"]
        if stops:
            live.remove(client)
    return begun, "".join(line + "\n" for line in lines + ["dump"])


def race(workers, text):
    try:
        ran = subprocess.run([PROGRAM, "race", "--workers", str(workers)], input=text.encode(), capture_output=True, timeout=SECONDS)
    except subprocess.TimeoutExpired:
        return None, ""
    return ran.returncode, ran.stdout.decode()


def last_dump(lines):
    """The words of its lines: the last line of the root, and all lines behind it but the end."""
    start = max(at for at, line in enumerate(lines) if line.startswith("dir 1 "))
    return [line.split() for line in lines[start:] if line.startswith(("dir ", "entry ", "file "))]


def fault(begun, status, output):
    """What is wrong with the output, or nothing."""
    lines = output.split("\n")
    if status != 0 or lines[-2:] != ["end", ""]:
        return f"no end in {SECONDS} seconds" if status is None else f"status {status}"
    answers = {client: [] for client in begun}
    for words in map(str.split, lines):
        if words and words[0] in answers:
            answers[words[0]].append(int(words[1]))
    for client, count in begun.items():
        if answers[client] != [*range(1, count + 1)]:
            return f"the answers of {client} are {answers[client]}, not 1 to {count}"
    dump = last_dump(lines)
    holds = {(words[0], words[1]): int(words[words.index("holds") + 1]) for words in dump if words[0] != "entry"}
    named = [(words[3], words[4]) for words in dump if words[0] == "entry"]
    for node in named:
        if holds.get(node, 0) < 1:
            return f"an entry leads to {' '.join(node)}, which is not held"
    return None if len(named) == len({*named}) else "two entries lead to the same"


def main():
    times, seed = [int(word) for word in sys.argv[1:]] + [200, 1][len(sys.argv) - 1 :]
    choose = random.Random(seed)
    met = 0
    for _ in range(times):
        begun, text = script(choose)
        outputs = []
        for workers in WORKERS:
            status, output = race(workers, text)
            why = fault(begun, status, output)
            if not why and workers == 1 and race(1, text)[1] != output:
                why = "one worker gave another output the second time"
            if why:
                print(text, output, f"{workers} workers: {why}", sep="\n")
                sys.exit(1)
            outputs.append(output)
        met += len({*outputs}) > 1
    print(f"{times} scripts, each by 1, 2, 4 and 8 workers: each race ended with status 0; {met} scripts had not the same output by each")


main()
