#!/usr/bin/env python3
"""Writes a script of writers, each of whom appends blocks to a file of its own: make_append_script.py APPENDS [BYTES [WRITERS [COPIES]]].

The same numbers give the same script. The writers append in turn.
"""
import random
import sys


def script(appends, size, writers, copies):
    choose = random.Random(1)
    yield f"store 4 4 4 {max(copies, 1) + 1} {copies}"
    for at in range(writers):
        yield f"c{at + 1} create /f{at}"
        yield f"c{at + 1} open /f{at}"
    for at in range(appends):
        writer = at % writers
        yield f"c{writer + 1} append /f{writer} {choose.randbytes(size).hex()}"


def main():
    numbers = [int(word) for word in sys.argv[1:]]
    appends, size, writers, copies = numbers + [1000, 32768, 1, 3][len(numbers):]
    for line in script(appends, size, writers, copies):
        sys.stdout.write(line + "\n")


main()
