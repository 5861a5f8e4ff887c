#!/usr/bin/env python3
"""Writes a file of 16 MiB of typed statements in the layout of the TPTP: reading.py FILE DECLARATIONS. After three types and so many
constants come axioms over them. The last statement has no type, so that a program ends when it has read and typed all before it."""
import random
import sys

path, declarations = sys.argv[1], int(sys.argv[2])
SIZE = 16 * 1024 * 1024
WORDS = """plus times minus member insert union image append list set nat int real map filter fold group ring field order lattice finite
closed open bound limit sum prod power""".split()
LAST = "thf(last,axiom,\n    unknown_name ).\n"
random.seed(7)
pick = random.choice


def declared(name, kind):
    """The predicates, functions and constants by turns; half are predicates."""
    if kind == 1:
        return f"thf(sy_c_{name},type,\n    {name}: nat > nat > nat ).\n\n"
    if kind == 2:
        return f"thf(sy_v_{name},type,\n    {name}: nat ).\n\n"
    return f"thf(sy_c_{name},type,\n    {name}: nat > list_nat > $o ).\n\n"


def statements():
    for ty in ("nat", "list_nat", "set_nat"):
        yield f"thf(ty_n_t__{ty},type,\n    {ty}: $tType ).\n\n"
    names = [f"{pick(WORDS)}_{pick(WORDS)}_{n}" for n in range(declarations)]
    for n, name in enumerate(names):
        yield declared(name, n % 4)
    preds, funs, consts = names[0::4] + names[3::4], names[1::4], names[2::4]
    bodies = (
        lambda: f"""! [A: nat,B: nat] :
      ( ( {pick(funs)} @ A @ B )
      = ( {pick(funs)} @ B @ A ) )""",
        lambda: f"""! [A: nat,Xs: list_nat] :
      ( ( {pick(preds)} @ A @ Xs )
     => ( {pick(preds)} @ ( {pick(funs)} @ A @ {pick(consts)} ) @ Xs ) )""",
        lambda: f"""! [A: nat,B: nat,Xs: list_nat] :
      ( ( ( {pick(preds)} @ A @ Xs )
        & ( {pick(preds)} @ B @ Xs ) )
     => ( {pick(preds)} @ ( {pick(funs)} @ A @ B ) @ Xs ) )""",
        lambda: f"""! [Xs: list_nat] :
      ( ( {pick(preds)} @ {pick(consts)} @ Xs )
      | ? [N: nat] :
          ( {pick(preds)} @ N @ Xs ) )""",
    )
    n = 0
    while True:
        name = f"fact_{n}_{pick(WORDS)}__{pick(WORDS)}"
        yield f"% {name}\nthf({name},axiom,\n    {bodies[n % 4]()} ).\n\n"
        n += 1


left = SIZE - len(LAST)
with open(path, "w", encoding="ascii") as it:
    for statement in statements():
        left -= len(statement)
        if left < 0:
            break
        it.write(statement)
    it.write(LAST)
