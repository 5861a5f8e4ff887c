#!/usr/bin/env python3
"""Writes deep and wide inputs into a folder, and a list of calls: deep.py FOLDER. Each line of FOLDER/calls has the words of a call."""
import os
import sys

folder = sys.argv[1]
os.makedirs(folder, exist_ok=True)
calls = []

HEAD = """thf(c,type,c: $i).
thf(f,type,f: $i > $i).
thf(g,type,g: $i > $i > $i).
thf(p,type,p: $i > $o).
thf(q,type,q: $o).
"""
TEXT = "% SZS output start Refutation for x\nversion 1\n{}% SZS output end Refutation for x\n"


def write(name, text):
    with open(f"{folder}/{name}", "w", encoding="ascii") as it:
        it.write(text)


def run(name, problem):
    write(f"{name}.p", problem)
    calls.append(f"{name}.p")


def check(name, lines, problem=HEAD + "thf(a,axiom,q).\nthf(b,axiom,~ q).\n"):
    write(f"{name}.p", problem)
    write(f"{name}.txt", TEXT.format(lines))
    calls.append(f"--check {name}.txt {name}.p")


def church(exponent):
    numeral = lambda n, a: f"^[F: {a} > {a}, X: {a}] : " + "(F @ " * n + "X" + ")" * n
    low, high = "$i", "($i > $i)"
    term = f"({numeral(exponent, high)}) @ ({numeral(2, low)}) @ f @ c"
    return HEAD + f"thf(a,axiom,p @ ({term})).\n"


for n in (1000, 8190):
    check(f"applied{n}", f"0: False(0) [+(p {'(f ' * n}#0{')' * n})] []\n".replace("#0", "c"))
    check(f"functions{n}", f"w0 {'^$i.' * n}#0\n")
    check(f"type_right{n}", f"w0 ^{'($i>' * n}$o{')' * n}.$f\n")
    check(f"type_left{n}", f"w0 ^{'(' * n}$i{'>$i)' * n}.$f\n")
    check(f"negated{n}", f"0: False(0) [+(p {'(f ' * n}c{')' * n}),-q] []\n")
    check(f"implied_right{n}", f"0: False(0) [+{'($imp q ' * n}q{')' * n}] []\n")
    check(f"implied_left{n}", f"0: False(0) [+{'($imp ' * n}q{' q)' * n}] []\n")
    check(f"all_at_deep_type{n}", f"0: False(0) [+($all[{'($i>' * n}$o{')' * n}] ^{'($i>' * n}$o{')' * n}.$f)] []\n")
for n in (1000, 50000):
    check(f"literals{n}", f"0: Close(0,1) [{','.join('+q' if k % 2 else '-q' for k in range(n))}] []\n")
    check(f"lines{n}", "".join(f"{k}: Close(0,1) [+q,-q] []\n" for k in range(n)))
    check(f"arguments{n}", f"0: False(0) [+(p (g {'c ' * n}))] []\n")
    check(f"long_name{n}", f"0: False(0) [+({'p' * n} c)] []\n")
for n in (10, 16, 20):
    run(f"church{n}", church(n))
    check(f"church_checked{n}", "0: Close(0,1) [+q,-q] []\n", church(n))
for n in (10, 24):
    run(f"doubled{n}", HEAD + "thf(a,axiom,p @ (" + "(^[X: $i] : (g @ X @ X)) @ (" * n + "c" + ")" * n + ")).\n")
for n in (100, 500):
    run(f"parentheses{n}", f"thf(c,conjecture,{'(' * n}$true{')' * n}).\n")
    run(f"negations{n}", f"thf(c,conjecture,{'~ ' * n}$true).\n")
    run(f"conjunction{n}", "thf(q,type,q: $o).\n" + f"thf(c,conjecture,{' & '.join(['q'] * n)}).\n")
    run(f"type_chain{n}", f"thf(h,type,h: {' > '.join(['$i'] * n)} > $o).\nthf(c,conjecture,h = h).\n")
    run(f"variables{n}", f"thf(c,conjecture,! [{', '.join(f'X{k}: $i' for k in range(10 * n))}] : $true).\n")
with open(f"{folder}/calls", "w", encoding="ascii") as it:
    it.write("".join(f"{line}\n" for line in calls))
print(f"{len(calls)} calls")
