#!/usr/bin/env python3
"""Writes the problems and the modes that bench/calls.sh and bench/search.sh time into a folder: problems.py FOLDER"""
import sys
from pathlib import Path

# A successor that is one to one and misses zero: nothing contradicts, and the search goes on for ever.
INJ = """thf(z,type,z: $i).
thf(s,type,s: $i > $i).
thf(inj,axiom,( ! [X:$i,Y:$i] : ( ( ( s @ X ) = ( s @ Y ) ) => ( X = Y ) ) )).
thf(miss,axiom,( ! [X:$i] : ( ( s @ X ) != z ) )).
"""

# Quantifiers over functions and predicates of four types: the search makes many partial terms.
PARTIAL = """thf(f,type,f: $i > $i > $i).
thf(c,type,c: $i).
thf(p,type,p: ( $i > $i ) > ( $i > $o ) > $o).
thf(q,type,q: ( $i > $i > $i ) > $i > $o).
thf(a,axiom,( ! [G:$i > $i,P:$i > $o] : ( ( p @ G @ P ) => ( P @ ( G @ c ) ) ) )).
thf(b,axiom,( ! [H:$i > $i > $i,X:$i] : ( ( q @ H @ X ) => ? [Y:$i] : ( q @ ( ^ [U:$i,V:$i] : ( H @ V @ U ) ) @ Y ) ) )).
thf(g,conjecture,( ? [H:$i > $i > $i] : ! [X:$i] : ( q @ H @ ( f @ X @ c ) ) )).
"""


def pigeons(holes):
    """One pigeon more than there are holes: each sits in one, and no two in the same one."""
    for i in range(holes + 1):
        for j in range(holes):
            yield f"thf(p{i}_{j}_type,type,p{i}_{j}: $o).\n"
    for i in range(holes + 1):
        yield f"thf(a{i},axiom,( {' | '.join(f'p{i}_{j}' for j in range(holes))} )).\n"
    for j in range(holes):
        for a in range(holes + 1):
            for b in range(a):
                yield f"thf(b{j}_{a}_{b},axiom,( ~ p{a}_{j} | ~ p{b}_{j} )).\n"


folder = Path(sys.argv[1])
(folder / "inj.p").write_text(INJ)
(folder / "partial.p").write_text(PARTIAL)
for holes in (6, 8):
    (folder / f"pigeons{holes}.p").write_text("".join(pigeons(holes)))
for commands in (20000, 1000000):
    (folder / f"c{commands}.mode").write_text(f"commands {commands}\n")
