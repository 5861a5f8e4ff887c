#!/usr/bin/env python3
"""Writes a large problem to standard output: large.py KIND [BYTES].

equal          one axiom again and again
disjunctions   disjunctions of twenty of 1,000 names, chosen by a fixed sequence
types          one name of a type of 25,761 places, and c = c again and again, 100,000 bytes

The first two have at most so many bytes, and else 16 MiB, the most that a file may have.
"""
import sys

MOST = 16777216


def equal():
    """The declarations, and then one axiom without end."""
    yield "thf(p,type,p: $i > $o).\n"
    yield "thf(q,type,q: $i > $i > $o).\n"
    while True:
        yield "thf(a,axiom,( ! [X: $i] : ( ( p @ X ) => ( ? [Y: $i] : ( q @ X @ Y ) ) ) )).\n"


def disjunctions():
    """The names, and then disjunctions without end."""
    for k in range(1000):
        yield f"thf(n{k},type,n{k}: $o).\n"
    state = 1
    while True:
        names = []
        for _ in range(20):
            state = state * 1103515245 + 12345 & 0x7FFFFFFF
            names.append(f"n{(state >> 8) % 1000}")
        yield f"thf(a,axiom,( {' | '.join(names)} )).\n"


def types():
    """A name of a big type, and then equations without end."""
    argument = "(" + ">".join(["$i"] * 161) + ")"
    yield f"thf(t,type,c:({'>'.join([argument] * 160)}>$i)>$o).\n"
    while True:
        yield "thf(a,axiom,c=c).\n"


KINDS = {"equal": (equal, MOST), "disjunctions": (disjunctions, MOST), "types": (types, 100000)}


def main():
    if len(sys.argv) not in (2, 3) or sys.argv[1] not in KINDS:
        sys.exit(__doc__)
    statements, wanted = KINDS[sys.argv[1]]
    if len(sys.argv) == 3:
        wanted = int(sys.argv[2])
    written = 0
    for statement in statements():
        written += len(statement)
        if written > wanted:
            return
        sys.stdout.write(statement)


if __name__ == "__main__":
    main()
