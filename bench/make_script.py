#!/usr/bin/env python3
"""Writes a script of many clients on many directories: make_script.py LINES [CLIENTS [SHARDS [SEED]]].

The same numbers give the same script. Directories hold at most 1,000 entries: a full one is left, and a new one is made.
Six of ten commands make a file, and the others look one up, rename one or delete one.
"""
import random
import sys

FULL = 1000


def script(lines, clients, shards, seed):
    choose = random.Random(seed)
    yield f"store {shards} {shards} 1 3 3"
    made = []
    files = {}
    left = lines - 1
    while left > 0:
        client = f"c{choose.randrange(clients) + 1}"
        live = [d for d in made if len(files[d]) < FULL][-clients:]
        if len(live) < clients:
            name = f"/d{len(made)}"
            made.append(name)
            files[name] = []
            yield f"{client} mkdir {name}"
            left -= 1
            continue
        home = choose.choice(live)
        names = files[home]
        kind = choose.randrange(10)
        if kind < 6 or not names:
            name = f"f{len(names)}"
            names.append(name)
            yield f"{client} create {home}/{name}"
        elif kind < 8:
            yield f"{client} look {home}/{choose.choice(names)}"
        elif kind == 8:
            old = choose.randrange(len(names))
            new = names[old].split("-")[0] + f"-{choose.randrange(9)}"
            yield f"{client} rename {home}/{names[old]} {home}/{new}"
            names[old] = new
        else:
            yield f"{client} delete {home}/{names.pop()}"
        left -= 1


def main():
    numbers = [int(word) for word in sys.argv[1:]]
    lines, clients, shards, seed = numbers + [60000, 16, 4, 1][len(numbers):]
    sys.stdout.write("\n".join(script(lines, clients, shards, seed)) + "\n")


main()
