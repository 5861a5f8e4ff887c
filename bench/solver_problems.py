#!/usr/bin/env python3
"""Writes the solver's problems in DIMACS into a folder: solver_problems.py FOLDER. The name of a file is that of its family, and a number."""
import itertools
import random
import sys


def pigeons(pigeons, holes):
    sits = lambda pigeon, hole: pigeon * holes + hole + 1
    clauses = [[sits(i, j) for j in range(holes)] for i in range(pigeons)]
    clauses += [[-sits(a, j), -sits(b, j)] for j in range(holes) for a in range(pigeons) for b in range(a)]
    return pigeons * holes, clauses


def reordered(problem, seed):
    """The same clauses and literals in another order."""
    pick, (variables, clauses) = random.Random(seed), problem
    clauses = [pick.sample(clause, len(clause)) for clause in clauses]
    pick.shuffle(clauses)
    return variables, clauses


def renamed(problem, seed):
    """The same problem over variables of other numbers, in another order."""
    pick, (variables, clauses) = random.Random(seed), problem
    names = pick.sample(range(1, variables + 1), variables)
    return reordered((variables, [[names[abs(l) - 1] * (1 if l > 0 else -1) for l in clause] for clause in clauses]), seed)


def chosen(variables, count, seed):
    pick = random.Random(seed)
    clauses = []
    for _ in range(count):
        some = pick.sample(range(1, variables + 1), 3)
        clauses.append([v if pick.random() < 0.5 else -v for v in some])
    return variables, clauses


def colouring(nodes, degree, colours, seed):
    """A random graph with so many edges at a node on the average, and a colour for each node."""
    pick, edges = random.Random(seed), set()
    while len(edges) < nodes * degree // 2:
        a, b = pick.sample(range(nodes), 2)
        edges.add((min(a, b), max(a, b)))
    has = lambda node, colour: node * colours + colour + 1
    clauses = [[has(node, colour) for colour in range(colours)] for node in range(nodes)]
    clauses += [[-has(a, colour), -has(b, colour)] for a, b in sorted(edges) for colour in range(colours)]
    clauses += [[-has(node, a), -has(node, b)] for node in range(nodes) for a in range(colours) for b in range(a)]
    return nodes * colours, clauses


def odd(variables, sum_of_signs):
    """An odd or even number of the variables is true."""
    signs = [some for some in itertools.product((0, 1), repeat=len(variables)) if sum(some) % 2 != sum_of_signs]
    return [[-v if sign else v for v, sign in zip(variables, some)] for some in signs]


def parity(bits, sums, seed):
    """Hidden bits, and for some of their subsets whether an odd number of them is set."""
    pick = random.Random(seed)
    hidden, variables, clauses = [pick.randint(0, 1) for _ in range(bits)], bits, []
    for _ in range(sums):
        some = [i for i in range(bits) if pick.random() < 0.5]
        if some:
            total = some[0] + 1
            for i in some[1:]:
                variables += 1
                clauses += odd([total, i + 1, variables], 0)
                total = variables
            clauses.append([total if sum(hidden[i] for i in some) % 2 else -total])
    return variables, clauses


def urquhart(nodes, degree, seed):
    """A random regular graph whose edges are to have sums at the nodes that contradict each other."""
    pick = random.Random(seed)
    while True:
        ends = [node for node in range(nodes) for _ in range(degree)]
        pick.shuffle(ends)
        edges = list(zip(ends[::2], ends[1::2]))
        if all(a != b for a, b in edges) and len({frozenset(edge) for edge in edges}) == len(edges):
            break
    at = [[i + 1 for i, edge in enumerate(edges) if node in edge] for node in range(nodes)]
    sums = [pick.randint(0, 1) for _ in range(nodes)]
    sums[0] ^= 1 - sum(sums) % 2
    clauses = [clause for node in range(nodes) for clause in odd(at[node], sums[node])]
    pick.shuffle(clauses)
    return len(edges), clauses


class Circuit:
    def __init__(self):
        self.variables, self.clauses = 0, []

    def new(self):
        self.variables += 1
        return self.variables

    def both(self, a, b):
        out = self.new()
        self.clauses += [[-out, a], [-out, b], [out, -a, -b]]
        return out

    def differ(self, a, b):
        out = self.new()
        self.clauses += odd([a, b, out], 0)
        return out

    def add(self, bits):
        """The sum of one, two or three bits, and what is carried, if anything is."""
        if len(bits) == 1:
            return bits[0], None
        if len(bits) == 2:
            return self.differ(*bits), self.both(*bits)
        half = self.differ(bits[0], bits[1])
        return self.differ(half, bits[2]), -self.both(-self.both(bits[0], bits[1]), -self.both(half, bits[2]))

    def product(self, a, b):
        rest = [self.both(a[0], bit) for bit in b] + [None]
        out, rest = [rest[0]], rest[1:]
        for digit in a[1:]:
            row, carried, sums = [self.both(digit, bit) for bit in b], None, []
            for old, new in zip(rest, row):
                total, carried = self.add([bit for bit in (old, new, carried) if bit is not None])
                sums.append(total)
            sums.append(carried)
            out.append(sums[0])
            rest = sums[1:]
        return out + [bit for bit in rest if bit is not None]


def miter(bits):
    """Some product of two numbers depends on their order."""
    circuit = Circuit()
    a, b = [circuit.new() for _ in range(bits)], [circuit.new() for _ in range(bits)]
    pairs = list(zip(circuit.product(a, b), circuit.product(b, a)))
    circuit.clauses.append([circuit.differ(p, q) for p, q in pairs])
    return circuit.variables, circuit.clauses


def write(name, problem):
    variables, clauses = problem
    with open(f"{sys.argv[1]}/{name}.cnf", "w") as file:
        print(f"p cnf {variables} {len(clauses)}", file=file)
        for clause in clauses:
            print(*clause, 0, file=file)


for n in (8, 9):
    write(f"pigeons{n}", pigeons(n, n - 1))
for seed in range(6):
    write(f"renamed8_{seed}", renamed(pigeons(8, 7), 100 + seed))
for seed in range(3):
    write(f"reordered9_{seed}", reordered(pigeons(9, 8), 100 + seed))
for seed in range(4):
    write(f"renamed9_{seed}", renamed(pigeons(9, 8), 100 + seed))
for seed in range(10):
    write(f"random150_{seed}", chosen(150, 639, 100 + seed))
    write(f"random200_{seed}", chosen(200, 852, 200 + seed))
for seed in range(4):
    write(f"colouring_{seed}", colouring(105, 9, 4, 60 + seed))
    write(f"parity_{seed}", parity(24, 30, 140 + seed))
    write(f"urquhart_{seed}", urquhart(32, 3, 190 + seed))
for seed in range(2):
    write(f"miter6_{seed}", renamed(miter(6), 50 + seed))
write("wide10000", chosen(10000, 10000, 1))
