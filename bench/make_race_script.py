#!/usr/bin/env python3
"""Writes a script whose clients work side by side, each in a directory of its own: make_race_script.py LINES [CLIENTS [SHARDS]].

Each client makes its directory, and then in turn files, looks at them, renames and deletes them; a directory holds at most 2,000
entries. The lines go round by client.
"""
import sys

FULL = 2000


def client_lines(client, count):
    """The commands of one client."""
    home, names, made = f"/d{client}-0", [], 0
    yield f"mkdir {home}"
    for at in range(1, count):
        kind = at % 10
        if len(names) >= FULL:
            made += 1
            home, names = f"/d{client}-{made}", []
            yield f"mkdir {home}"
        elif kind < 6 or not names:
            name = f"f{at}"
            names.append(name)
            yield f"create {home}/{name}"
        elif kind < 8:
            yield f"look {home}/{names[at * 7 % len(names)]}"
        elif kind == 8:
            place = at * 5 % len(names)
            yield f"rename {home}/{names[place]} {home}/{names[place]}x"
            names[place] += "x"
        else:
            yield f"delete {home}/{names.pop()}"


def main():
    numbers = [int(word) for word in sys.argv[1:]]
    lines, clients, shards = numbers + [60000, 16, 16][len(numbers):]
    print(f"store {shards} {shards} 1 3 3")
    count = (lines - 1 + clients - 1) // clients
    rows = zip(*(client_lines(client, count) for client in range(1, clients + 1)))
    left = lines - 1
    for row in rows:
        for client, command in enumerate(row, 1):
            if left == 0:
                return
            print(f"c{client} {command}")
            left -= 1


main()
