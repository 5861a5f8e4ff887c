"""Makes the inputs of tests/hostile.py: each kind of KINDS is a function of a random generator. Problems, texts and calls of the repository
are what most of them begin with."""
import os
import random
import re
from collections.abc import Callable
from dataclasses import dataclass, field
from pathlib import Path

from case_files import cases

TOP = Path(os.path.realpath(__file__)).parent.parent
TOKEN = re.compile(rb"'(?:[^'\\\n]|\\.)*'|[$\w]+|<=>|<~>|=>|<=|~\||~&|!=|!!|\?\?|@\+|@-|\s+|.", re.S)


@dataclass
class Input:
    """The words of a call, and the files of the folder in which it runs."""

    words: list[bytes]
    files: dict[bytes, bytes] = field(default_factory=dict)


def call(*words: object, **files: object) -> Input:
    encoded = [word if isinstance(word, bytes) else str(word).encode() for word in words]
    return Input(encoded, {name.replace("_", ".").encode(): f if isinstance(f, bytes) else f.encode() for name, f in files.items()})


class Corpus:
    """What is mutated: problems of the examples, the goals and the cases, and texts of the cases."""

    def __init__(self) -> None:
        self.problems: list[tuple[list[bytes], dict[bytes, bytes]]] = []
        self.texts: list[tuple[list[bytes], dict[bytes, bytes]]] = []
        axioms = [TOP / "examples" / "weather.ax", *sorted((TOP / "bench" / "library").glob("*.ax"))]
        included = {str(path.relative_to(TOP)).encode(): path.read_bytes() for path in axioms}
        for path in [*sorted((TOP / "examples").glob("*.p")), *sorted((TOP / "bench" / "goals").glob("*.p"))]:
            text = path.read_bytes()
            self.problems.append(([b"p.p"], {b"p.p": text, **(included if b"include(" in text else {})}))
        for path in sorted((TOP / "crates" / "test_cases" / "data").glob("*.cases")):
            for case in cases(path):
                words, files = [bytes(w) for w in case.words], {n.encode(): bytes(f) for n, f in case.files.items()}
                if not words or sum(map(len, files.values())) > 60_000:
                    continue
                if words[0] in (b"--check", b"--strict") and len(words) == 3 and words[1] in files:
                    if not re.search(rb" (form|start|end)\n", case.text):
                        self.texts.append((words, files))
                elif words[-1] in files:
                    self.problems.append((words, files))
        problems = {text for _, files in self.problems[:300] for text in files.values()}
        self.tokens = [t for text in sorted(problems) for t in TOKEN.findall(text) if t.strip() and len(t) < 20]
        self.tokens += [b"?? @", b"!! @", b"@+", b"@-", b"^", b"(~)", b"(&)", b"$tType", b"include", b"'A b'", b"<~>", b"~|", b"~&"]


CORPUS = Corpus()


class Maker:
    """Random problems in which every term has a type, so that most of them are read to their end."""

    BASES = ("$i", "$i", "$i", "$o", "a", "b")
    PAIRS = ("=>", "<=", "<=>", "<~>", "~|", "~&", "&", "|")

    def __init__(self, pick: random.Random, order: int = 2) -> None:
        self.pick, self.order, self.variables = pick, order, 0
        self.names: list[tuple[str, object]] = []
        self.lines = [f"thf({base}_type,type,{base}: $tType)." for base in ("a", "b")]

    def type(self, order: int) -> object:
        if order <= 0 or self.pick.random() < 0.4:
            return self.pick.choice(self.BASES)
        return (self.type(order - 1), self.type(order if self.pick.random() < 0.4 else 0))

    def shown(self, type: object) -> str:
        return type if isinstance(type, str) else f"({self.shown(type[0])} > {self.shown(type[1])})"

    def declare(self, type: object) -> str:
        name = f"{self.pick.choice('cdfghpqr')}{len(self.names)}"
        self.lines.append(f"thf(t{len(self.names)},type,{name}: {self.shown(type)}).")
        self.names.append((name, type))
        return name

    def variable(self) -> str:
        self.variables += 1
        return self.pick.choice("XYZ") + (str(self.variables) if self.pick.random() < 0.8 else "")

    def bound(self, binder: str, of: object, scope: list, room: int, body: object = "$o") -> str:
        name = self.variable()
        inner = [(n, t) for n, t in scope if n != name] + [(name, of)]
        return f"( {binder} [{name}: {self.shown(of)}] : {self.term(body, inner, room - 1)} )"

    def applied(self, wanted: object, scope: list, room: int) -> str | None:
        """A name or a variable with arguments, so that the type is the wanted one."""
        fits = []
        for name, type in [*scope, *scope, *self.names]:
            arguments = []
            while type != wanted and not isinstance(type, str):
                arguments.append(type[0])
                type = type[1]
            if type == wanted and (room > 0 or not arguments):
                fits.append((name, arguments))
        if not fits:
            return None
        name, arguments = self.pick.choice(fits)
        return f"( {' @ '.join([name, *(self.term(a, scope, room - 1 - len(arguments) // 2) for a in arguments)])} )" if arguments else name

    def term(self, type: object, scope: list, room: int) -> str:
        pick = self.pick
        if pick.random() < (0.5 if room > 0 else 0.9) and (head := self.applied(type, scope, room)):
            return head
        if not isinstance(type, str):
            if type[0] == "$o" and type[1] == ("$o", "$o") and pick.random() < 0.3:
                return f"({pick.choice(self.PAIRS)})"
            return "(~)" if type == ("$o", "$o") and pick.random() < 0.2 else self.bound("^", type[0], scope, room, type[1])
        if type == "$o":
            return self.formula(scope, room)
        if room > 0 and pick.random() < 0.2:
            of = self.type(1)
            return f"( {self.bound('^', of, scope, room, type)} @ {self.term(of, scope, room - 1)} )"
        return self.applied(type, scope, 0) or self.bound(pick.choice(("@+", "@-")), type, scope, room if room > 1 else 0)

    def formula(self, scope: list, room: int) -> str:
        pick, of = self.pick, self.type(self.order - 1)
        way = pick.randrange(12) if room > 0 else 12
        if way < 3:
            return self.bound(pick.choice("!!?"), of, scope, room)
        if way < 6:
            return f"( {self.term('$o', scope, room - 1)} {pick.choice(self.PAIRS)} {self.term('$o', scope, room - 1)} )"
        if way < 8:
            return f"( {self.term(of, scope, room - 2)} {pick.choice(('=', '!='))} {self.term(of, scope, room - 2)} )"
        if way == 8:
            return f"( {pick.choice(('!!', '??'))} @ {self.term((of, '$o'), scope, room - 1)} )"
        if way == 9:
            return f"( ~ {self.term('$o', scope, room - 1)} )"
        return self.applied("$o", scope, 0) or pick.choice(("$true", "$false"))

    def state(self, role: str, formula: str) -> None:
        self.lines.append(f"thf(s{len(self.lines)},{role},{formula}).")

    def problem(self, axioms: int, room: int) -> str:
        for _ in range(self.pick.randrange(1, 6)):
            self.declare(self.type(self.order))
        for _ in range(self.pick.randrange(axioms + 1)):
            role = self.pick.choice(("axiom", "axiom", "hypothesis", "lemma", "negated_conjecture", "definition"))
            self.state(role, self.term("$o", [], room))
        if self.pick.random() < 0.8:
            self.state("conjecture", self.term("$o", [], room))
        return "\n".join(self.lines) + "\n"


def mode(pick: random.Random, most: int = 400) -> str:
    keys = [f"commands {pick.choice((0, 1, 2, 5, 20, 100, most))}"]
    for key in ("process", "mate", "confront", "inst", "choose", "grow"):
        if pick.random() < 0.3:
            keys.append(f"{key} {pick.choice((0, 1, 2, 3, 8, 30, 200, 1000))}")
    pick.shuffle(keys)
    return "\n".join(keys) + "\n"


def problem(pick: random.Random) -> Input:
    text = Maker(pick, pick.choice((1, 2, 2, 3))).problem(4, pick.choice((2, 3, 4, 6)))
    return call("--mode", "m", "p.p", m=mode(pick), p_p=text)


def token(pick: random.Random, data: bytes, pool: list[bytes]) -> bytes:
    """One to three tokens less, more, in another place, or another one."""
    tokens = TOKEN.findall(data)
    for _ in range(pick.choice((1, 1, 2, 3))):
        at, to, way = pick.randrange(len(tokens) + 1), pick.randrange(len(tokens) + 1), pick.randrange(6)
        if way == 0:
            del tokens[at : at + 1]
        elif way == 1:
            tokens[at:at] = tokens[at : at + pick.choice((1, 1, 2, 8))]
        elif way == 2:
            tokens[at : at + 1], tokens[to : to + 1] = tokens[to : to + 1], tokens[at : at + 1]
        elif way == 3:
            del tokens[at : at + pick.choice((2, 4, 16))]
        else:
            tokens[at : at + way - 4] = [pick.choice(pool) if pick.random() < 0.7 or not tokens else pick.choice(tokens)]
    return b"".join(tokens)


def byte(pick: random.Random, data: bytes) -> bytes:
    """One to four bytes less, more or other ones, a piece twice, or an end that is cut off."""
    out = bytearray(data)
    for _ in range(pick.choice((1, 1, 2, 4))):
        at, way = pick.randrange(len(out) + 1), pick.randrange(8)
        if way < 2:
            del out[at : at + pick.choice((1, 1, 3, 20))]
        elif way < 5:
            chosen = pick.choice((pick.randrange(256), pick.randrange(32, 127), *b"\n\r\t\0()[]'\\%/*$#-0\x7f\x80\xff"))
            out[at : at + way - 3] = bytes([chosen])
        elif way < 7:
            out[at:at] = out[max(0, at - pick.choice((1, 5, 40))) : at]
        elif pick.random() < 0.3:
            del out[at:]
    return bytes(out)


def mutated(pick: random.Random, change: object) -> Input:
    words, files = pick.choice(CORPUS.problems)
    files = dict(files)
    name = pick.choice([words[-1], words[-1], *files])
    files[name] = change(files[name])
    if len(words) == 1 or any(w.startswith(b"--schedule") for w in words):
        files[b"m"] = mode(pick).encode()
        words = [b"--mode", b"m", words[-1]]
    return Input(list(words), files)


def tokens(pick: random.Random) -> Input:
    return mutated(pick, lambda data: token(pick, data, CORPUS.tokens))


def bytes_(pick: random.Random) -> Input:
    return mutated(pick, lambda data: byte(pick, data))


# The names of rules, as docs/TEXTS.md has them.
RULE_LINE = next(line for line in (TOP / "docs" / "TEXTS.md").read_bytes().splitlines() if line.startswith(b"| rule |"))
RULES = re.findall(rb"`([A-Z][a-z]+[+-]?)\(", RULE_LINE)
TEXT_TOKENS = b"""0 1 2 7 x [] w0 w1 $w0 #0 #1 + - %s $f
    $not $imp $all[$i] $eq[$i] $eq[$o] $eps[$i] $the[$i] ^$i. ($i>$o) $o $i ' 00 4294967295 4294967296
    18446744073709551615 18446744073709551616 ( ) , ; :""".replace(b"%s", b" ".join(RULES)).split() + [b"version 2", b"d p", b"\n", b" ", b"\r\n"]

# What may stand in place of one another without a change of form: numbers, rules, signs, whole literals, terms of one head, types.
ALIKE = [rb"\d+", rb"(?<=: )[A-Z][a-z]+[+-]?(?=\()", rb"(?<=[\[,])[+-]", rb"(?<=[\[,])[+-][^,\]]+", rb"\$w\d+|\b[a-z]\w*\b", rb"#\d+"]
ALIKE += [rb"\$(?:eq|all|eps|the)\[[^][]*\]", rb"\$[oi]\b", rb"\([^()]*\)", rb"\[[^][]*\]"]


def exchanged(pick: random.Random, data: bytes) -> bytes:
    """One piece of a text in place of another one of its kind."""
    found = list(re.finditer(pick.choice(ALIKE), data))
    if len(found) < 2:
        return lines(pick, data)
    at, by = pick.choice(found), pick.choice(found)
    return data[: at.start()] + by[0] + data[at.end() :]


def lines(pick: random.Random, data: bytes) -> bytes:
    rows = data.split(b"\n")
    at, to, way = pick.randrange(len(rows)), pick.randrange(len(rows)), pick.randrange(4)
    if way == 0:
        del rows[at]
    elif way == 1:
        rows[at], rows[to] = rows[to], rows[at]
    elif way == 2:
        rows.insert(to, rows[at])
    else:
        numbered = re.sub(rb"\d+", lambda m: b"%d" % max(0, int(m[0]) + pick.choice((0, 0, 0, 1, -1))), rows[at])
        rows[at] = numbered
    return b"\n".join(rows)


# Reports are mutated too: what a call comes to. The one who runs the program says how that is found out.
prove: Callable[[Input], bytes] = lambda _: b""


def text(pick: random.Random) -> Input:
    words, files = pick.choice(CORPUS.texts)
    if pick.random() < 0.4:
        made = call("--mode", "m", "p.p", m="commands 60\n", p_p=Maker(pick, pick.choice((1, 2))).problem(4, pick.choice((2, 3, 4))))
        report = prove(made)
        if b"% SZS output start Refutation" in report:
            words, files = [b"--check", b"t", b"p.p"], {**made.files, b"t": report}
    words, files = list(words), dict(files)
    words[0] = pick.choice((words[0], words[0], b"--strict"))
    for _ in range(pick.choice((0, 1, 1, 1, 2))):
        change = pick.choice((exchanged, exchanged, exchanged, exchanged, lines, lines, lambda p, d: token(p, d, TEXT_TOKENS), byte))
        files[words[1]] = change(pick, files[words[1]])
    return Input(words, files)


def include(pick: random.Random) -> Input:
    """A few files that include one another, mostly without a cycle, with selections of names that are there or not."""
    many = pick.randrange(2, 8)
    names = [pick.choice(("f%d.ax", "d/f%d", "f %d", "../here/f%d.ax", "F%d'")) % k for k in range(many)]
    files = {}
    for k in range(many):
        label, said = (lambda: pick.choice("nm7k")), (lambda: pick.choice(("$true", "$false", "p", "~ p")))
        rows = [f"thf({label()},axiom,{said()})." for _ in range(pick.randrange(3))]
        if pick.random() < 0.6 or k == many - 1:
            rows.insert(0, "thf(p,type,p: $o)." if pick.random() < 0.7 else "")
        for _ in range(pick.choice((0, 1, 1, 2)) if k < many - 1 else pick.choice((0, 0, 0, 1))):
            to = pick.choice(names[k + 1 :]) if k < many - 1 and pick.random() < 0.95 else pick.choice((*names, "none", "", "d"))
            labels = [pick.choice("nm7kpq") for _ in range(pick.randrange(1, 4))]
            chosen = "" if pick.random() < 0.6 else f",[{','.join(labels)}]"
            quoted = to.replace("'", "\\'")
            rows.insert(pick.randrange(len(rows) + 1), f"include('{quoted}'{chosen}).")
        files[names[k].encode()] = "\n".join(rows).encode()
    return Input([names[0].encode()], files)


KEYS = ("process", "mate", "confront", "inst", "choose", "grow", "commands", "conflicts", "slice", "Commands", "grows", "%", "")
NUMBERS = """0 1 3 200 1000 1001 20000 1000000 1000001 1000000000000 1000000000001 00 01 -1 +1 x 1e3 0x1 18446744073709551615
    18446744073709551616 99999999999999999999999999""".split() + ["1 ", "1  2", "", "\u0661"]
ENDS = ("",) * 10 + (" ", "  ", "\r", "\t", " \r", "\r ")


def settings(pick: random.Random, first: list[str]) -> bytes:
    rows = list(first)
    for _ in range(pick.randrange(6)):
        key = pick.choice(KEYS[:6]) if pick.random() < 0.8 else pick.choice(KEYS)
        number = str(pick.choice((0, 1, 2, 30, 1000))) if pick.random() < 0.8 else pick.choice(NUMBERS)
        if key == "conflicts" and number.isascii() and number.strip().isdigit() and int(number) < 20000:
            number = "20000"
        begin, gap, behind = pick.choice(("",) * 20 + (" ",)), pick.choice((" ",) * 12 + ("  ", "   ", "\t", "", "\v")), pick.choice(ENDS)
        rows.insert(pick.randrange(len(rows) + 1), begin + key + gap + number + behind)
    data = pick.choice(("\n", "\n", "\n", "\n\n", "\r\n")).join(rows).encode() + pick.choice((b"\n", b"\n", b"", b"\r", b"\r\n"))
    return byte(pick, data) if pick.random() < 0.15 else data


def small(pick: random.Random) -> str:
    return Maker(pick, 1).problem(2, 2)


def mode_file(pick: random.Random) -> Input:
    return call("--mode", "m", "p.p", m=settings(pick, ["commands 50"]), p_p=small(pick))


def schedule(pick: random.Random) -> Input:
    rows = []
    for _ in range(pick.choice((1, 2, 2, 3, 4, 15, 16, 17))):
        rows += [f"slice {pick.choice((1, 1, 2, 3, 10, 50, 1000))}", *mode(pick, 60).splitlines()]
    data = settings(pick, rows) if pick.random() < 0.5 else "\n".join(rows).encode()
    return call("--schedule", "s", "p.p", s=data, p_p=small(pick))


OPTIONS = "--mode --schedule --tree --check --strict --models --same --demo -- - --help -h --version --modes --Mode".split()
VALUES = "p.p p.p m s t t none 0 1 2 3 8 9 01 +1 1000 1001 10000 10001 -1 4294967297 18446744073709551617 d/p.p . / --p.p =".split()
VALUES += ["", " 1", "x" * 4096, "x" * 4097, "a\nb", "a\tb", "\u00e9", "\u0085", "\u202e", b"\xff", b"p\x80", "\x7f", "p.p "]
WORDS = ["p.p", "--mode m", "--mode=m", "--schedule s", "--schedule=s", "--tree 20", "--tree=1", "--check t", "--check=t", "--strict t"]
WORDS += ["--models 2", "--same", "--demo 3", "--"]


def line(pick: random.Random) -> Input:
    words: list = []
    for _ in range(pick.choice((0, 1, 1, 2, 2, 3, 4))):
        option, value = pick.choice(OPTIONS), pick.choice(VALUES)
        joined = f"{option}={value}" if isinstance(value, str) else value
        words += pick.choice((pick.choice(WORDS).split(), pick.choice(WORDS).split(), [value], [option, value], [option], [joined]))
    if pick.random() < 0.6:
        words.append("p.p")
    data = TOP / "tests" / "data"
    return call(*words, m="commands 9\n", s="slice 1\n", t=(data / "all.txt").read_bytes(), p_p=(data / "all.p").read_bytes())


def same(pick: random.Random) -> Input:
    maker = Maker(pick, pick.choice((1, 2, 3)))
    maker.problem(1, 2)
    type, room = maker.type(2), pick.choice((2, 3, 5))
    left = maker.term(type, [], room)
    right = left if pick.random() < 0.5 else maker.term(type, [], room)
    if not isinstance(type, str) and pick.random() < 0.5:
        right = f"( ^ [E: {maker.shown(type[0])}] : ( {right} @ E ) )"
    if pick.random() < 0.5:
        right = f"( ( ^ [R: {maker.shown(type)}] : R ) @ {right} )"
    rows = [row for row in maker.lines if ",conjecture," not in row]
    rows.append(f"thf(c,conjecture,( {left} {pick.choice(('=', '=', '!='))} {right} )).")
    return call("--same", "p.p", p_p="\n".join(rows))


def models(pick: random.Random) -> Input:
    return call("--models", pick.choice((1, 2, 2, 3, 4, 8)), "p.p", p_p=Maker(pick, pick.choice((1, 1, 2))).problem(3, pick.choice((2, 3))))


def tree(pick: random.Random) -> Input:
    first = ["--mode", "m"] if pick.random() < 0.9 else []
    text = Maker(pick, pick.choice((1, 2))).problem(3, 3)
    return call(*first, "--tree", pick.choice((1, 3, 10, 50, 1000)), "p.p", m=mode(pick, 100), p_p=text)


def definition(pick: random.Random) -> Input:
    """Definitions in any order, of names that occur in one another, or twice, or aren't names."""
    maker = Maker(pick, 2)
    for _ in range(pick.randrange(2, 6)):
        maker.declare(maker.type(2))
    for _ in range(pick.randrange(1, 6)):
        name, type = pick.choice(maker.names)
        left = name if pick.random() < 0.9 else maker.term(type, [], 2)
        sign = pick.choice(("=", "<=>")) if type == "$o" else "="
        right = maker.term(type, [], pick.choice((1, 2, 3)))
        maker.state(pick.choice(("definition", "definition", "definition", "axiom")), f"( {left} {sign} {right} )")
    maker.problem(2, 3)
    return call("--mode", "m", "p.p", m=mode(pick, 100), p_p="\n".join(maker.lines))


OPENED = ["( ?? @ ( ^ [X: $i] : ", "( !! @ ( ^ [X: $i > $o] : ", "( ~ ( ", "( ( ", "( ! [X: $o] : ( ", "( ? [X: $i, Y: $i > $i] : ( "]
OPENED += ["( p | ( ", "( p => ( "]


def nested(pick: random.Random) -> Input:
    """Quantifiers, parentheses, types and chains within one another, mostly less deep than 512 and sometimes a little deeper."""
    deep = pick.choice((2, 5, 20, 60, 120)) if pick.random() < 0.7 else pick.randrange(500, 516)
    chosen = [pick.choice(OPENED) for _ in range(pick.choice((1, 1, 2, 3)))]
    opened = [pick.choice(chosen) for _ in range(max(1, deep // 2))]
    core = pick.choice(("p", "$false", "( p & ( q @ c ) )", "( ( ^ [Z: $i] : Z ) = ( ^ [Z: $i] : Z ) )", " & ".join(["p"] * deep)))
    head = f"thf(c,type,c: $i).\nthf(p,type,p: $o).\nthf(q,type,q: {'$i > ' * pick.choice((1, 1, 1, deep))}$o).\n"
    if "q @ c" in core:
        head = head.replace("$i > " * deep + "$o", "$i > $o") if deep > 1 else head
    formula = "".join(opened) + core + " ) )" * len(opened)
    return call("--mode", "m", "p.p", m=mode(pick, 60), p_p=f"{head}thf(a,{pick.choice(('axiom', 'conjecture'))},{formula}).\n")


# Each kind, with its share.
KINDS = {"text": (text, 20), "token": (tokens, 15), "byte": (bytes_, 15), "problem": (problem, 12), "line": (line, 8)}
KINDS |= {"mode": (mode_file, 7), "schedule": (schedule, 6), "same": (same, 4), "nested": (nested, 3), "include": (include, 4)}
KINDS |= {"models": (models, 2), "definition": (definition, 3), "tree": (tree, 3)}
