#!/usr/bin/env python3
"""check_text.py [--strict] TEXT PROBLEM: checks the text of a refutation against a problem, as docs/TEXTS.md says, and prints what
`satallax --check TEXT PROBLEM` (or `--strict`) prints, with the same status. It is written from docs/TEXTS.md and docs/THF.md alone,
shares nothing with the program, and decides nothing. It takes a problem that satallax can read: where it meets something else it ends with
status 2, but it looks for no limit, and not at notes or at statements that an include leaves out."""
import pathlib, re, sys, threading

# Types and terms are numbers, and each is kept once: equal numbers stand for equal types and terms. A type is a base type, '$o', '$i' or
# 'n' and a name, or ('>', a, b). A term is ('var', k), ('con', what, which), ('lam', a, t), a function, or ('app', s, t). The constants are
# 'n' with a name, '$w' with a number, '$f', '$not', '$imp', and '$all', '$eq', '$eps', '$the' with a type.
kept, number_of, memo = [None], {}, {}
def keep(*thing): return number_of.get(thing) or number_of.setdefault(thing, kept.append(thing) or len(kept) - 1)
def remembered(f):
    def g(*args): return memo[f, args] if (f, args) in memo else memo.setdefault((f, args), f(*args))
    return g
def arrow(a, b): return keep('>', a, b)
def is_arrow(a): return kept[a][0] == '>'
def var(k): return keep('var', k)
def con(what, which=None): return keep('con', what, which)
def lam(a, t): return keep('lam', a, t)
def app(t, *args):
    for u in args: t = keep('app', t, u)
    return t
FORM, INDIV, FALSE, NOT, IMP = keep('$o'), keep('$i'), con('$f'), con('$not'), con('$imp')
PREDICATE = arrow(FORM, FORM)
def every(a, t): return app(con('$all', a), lam(a, t))
def equal(a, s, t): return app(con('$eq', a), s, t)
def neg(t): return app(NOT, t)
def parts(t): return kept[t][{'lam': 2, 'app': 1}.get(kept[t][0], 3):]
def binders(t): return kept[t][0] == 'lam'
def same_with(t, changed): return lam(kept[t][1], *changed) if binders(t) else app(*changed) if changed else t
@remembered
def free(t):  # one more than the greatest free variable, or 0
    if kept[t][0] == 'var': return kept[t][1] + 1
    return max([0] + [free(u) - binders(t) for u in parts(t)])
@remembered
def lift(t, n, k=0):  # the term under n further binders, which stand behind the k innermost ones
    if n == 0 or free(t) <= k: return t
    if kept[t][0] == 'var': return var(kept[t][1] + n)
    return same_with(t, [lift(u, n, k + binders(t)) for u in parts(t)])
@remembered
def put(t, k, u):  # the normal form of t with u for variable k
    if free(t) <= k: return t
    if kept[t][0] == 'var': return lift(u, k) if kept[t][1] == k else var(kept[t][1] - 1)
    if binders(t): return lam(kept[t][1], put(kept[t][2], k + 1, u))
    return apply(put(kept[t][1], k, u), put(kept[t][2], k, u))
def apply(f, u): return put(kept[f][2], 0, u) if binders(f) else app(f, u)
@remembered
def eta(a, t):  # the eta-long form of a head, or of a head with arguments, of type a
    types = []
    while is_arrow(a): types.append(kept[a][1]); a = kept[a][2]
    t = app(lift(t, len(types)), *[eta(b, var(k)) for k, b in zip(range(len(types) - 1, -1, -1), types)])
    for b in reversed(types): t = lam(b, t)
    return t
@remembered
def size(t): return 1 + sum([size(u) for u in parts(t)])
@remembered
def mentions(t, c): return t == c or any([mentions(u, c) for u in parts(t)])
def spine(t):  # the head and the arguments
    args = []
    while kept[t][0] == 'app': args.append(kept[t][2]); t = kept[t][1]
    return t, args[::-1]

# ---- the problem ----
class Unreadable(Exception): pass
def refuse(why): raise Unreadable(why)
def need(true, why): return true or refuse(why)
TOKEN = re.compile(r"""(?P<gap>[\t-\r ]+|%[^\n]*|/\*.*?\*/)|(?P<lower>[a-z]\w*)|(?P<upper>[A-Z]\w*)|(?P<dollar>\$[a-z]\w*)
    |(?P<quoted>'(?:[ -&(-[\]-~]|\\['\\])+')|(?P<distinct>"(?:[ !\#-[\]-~]|\\["\\])+")|(?P<integer>[+-]?[0-9]+)
    |(?P<symbol><=>|<~>|=>|<=|~\||~&|!=|!!|\?\?|@\+|@-|[()[\],.:>~&|=!?^@])""", re.S | re.X | re.A)
JOINS = {'=>': lambda s, t: app(IMP, s, t), '<=': lambda s, t: app(IMP, t, s), '|': lambda s, t: app(IMP, neg(s), t),
         '&': lambda s, t: neg(app(IMP, s, neg(t))), '~|': lambda s, t: neg(app(IMP, neg(s), t)), '~&': lambda s, t: app(IMP, s, neg(t)),
         '<=>': lambda s, t: equal(FORM, s, t), '<~>': lambda s, t: neg(equal(FORM, s, t))}
ROLES = 'type conjecture axiom hypothesis definition assumption lemma theorem corollary plain negated_conjecture'.split()
def unquoted(text): return re.sub(r'\\(.)', r'\1', text[1:-1]) if text[0] == "'" else text
def statements(name, files, chain=()):  # the statements of a file and of those that it includes, each as a list of tokens
    need(name not in chain, 'a cycle of includes')
    data, at, out, tokens = files(name).decode('latin-1'), 0, [], []
    while at < len(data):
        m = need(TOKEN.match(data, at), '%s: no token at byte %d' % (name, at))
        at = m.end()
        if m.lastgroup != 'gap': tokens.append((m.lastgroup, m[0], '%s byte %d' % (name, m.start())))
        if m.lastgroup != 'symbol' or m[0] != '.': continue
        if tokens[0][1] == 'include':
            inner, only = statements(unquoted(tokens[2][1]), files, chain + (name,)), {unquoted(t[1]) for t in tokens[5:-3:2]}
            need(only <= {unquoted(s[2][1]) for s in inner}, '%s: no statement of a selected name' % tokens[0][2])
            out += [s for s in inner if not only or unquoted(s[2][1]) in only]
        else: out.append(tokens)
        tokens = []
    need(not tokens, name + ': the last statement has no end')
    return out
class Problem:
    def __init__(self, name, files):
        self.bases, self.consts, self.assumed, self.conjecture, self.taken, self.left = {FORM, INDIV}, {}, [], None, [], []
        for self.ts in statements(name, files):
            self.i, self.scope = 0, []
            self.take('thf'); self.take('('); self.i += 1; self.take(',')
            role = self.take(*ROLES); self.take(',')
            if role == 'type': self.typing()
            else: t = self.formula(self.whole)
            need(self.at(',') or self.take(')') and self.take('.'), 'syntax')
            if role == 'conjecture': self.conjecture = need(self.conjecture is None, 'a second conjecture') and t
            elif role != 'type': self.assumed.append((t, role == 'definition'))
        for t, marked in self.assumed:
            d = marked and self.definition(t)
            (self.taken if d else self.left).append(d or t)
    def at(self, *texts): return self.ts[self.i][1] in texts and self.ts[self.i][0] not in ('quoted', 'distinct')
    def take(self, *texts):
        need(self.at(*texts), '%s: syntax, or a role that is unknown' % self.ts[self.i][2])
        self.i += 1
        return self.ts[self.i - 1][1]
    def word(self, *kinds):
        self.i += 1
        return need(self.ts[self.i - 1][0] in kinds, '%s: syntax' % self.ts[self.i - 1][2]) and unquoted(self.ts[self.i - 1][1])
    def passed(self, *texts): return self.take(*texts) if self.at(*texts) else None
    def name(self): return self.word('lower', 'quoted')
    def typing(self):
        if self.passed('('): return (self.typing(), self.take(')'))
        name = self.name(); self.take(':')
        need(keep('n' + name) not in self.bases and name not in self.consts, name + ' is declared twice')
        if self.passed('$tType'): self.bases.add(keep('n' + name))
        else: self.consts[name] = self.type()
    def type(self):
        if self.passed('('): a, _ = self.type(), self.take(')')
        else: a = keep(self.word('dollar')[:2] if self.at('$i', '$iType', '$o', '$oType') else 'n' + self.name())
        need(is_arrow(a) or a in self.bases, 'a base type that is not declared')
        return arrow(a, self.type()) if self.passed('>') else a
    def formula(self, read):  # the readers below give a term with its type
        t, a = read()
        return need(a == FORM, '%s: no formula in front' % self.ts[self.i][2]) and t
    def whole(self):
        x = self.unit()
        while self.passed('@'):
            (s, a), (t, b) = x, self.operand()
            x = need(is_arrow(a) and kept[a][1] == b, 'no argument of this type') and (app(s, t), kept[a][2])
        if not self.at(*JOINS): return x
        sign, t = self.ts[self.i][1], need(x[1] == FORM, 'no formula') and x[0]
        while self.passed(sign):
            t = JOINS[sign](t, self.formula(self.unit))
            if sign not in '&|': break
        return t, FORM
    def operand(self): return (neg(self.formula(self.operand)), FORM) if self.passed('~') else self.unitary()
    def unit(self):
        (s, a), sign = self.operand(), self.passed('=', '!=')
        if not sign: return s, a
        t, b = self.unitary()
        return need(a == b, 'an equation of two types') and (equal(a, s, t) if sign == '=' else neg(equal(a, s, t))), FORM
    def unitary(self):
        kind, text, _ = self.ts[self.i]
        if kind == 'upper':
            self.i += 1
            for k, (name, a) in enumerate(reversed(self.scope)):
                if name == text: return var(k), a
        elif kind in ('lower', 'quoted'):
            name = self.name()
            if name in self.consts: return con('n', name), self.consts[name]
        elif self.at('!', '?', '^', '@+', '@-'): return self.bound(self.take(text))
        elif self.passed('!!', '??'):
            self.take('@')
            s, a = self.operand()
            a = need(is_arrow(a) and kept[a][2] == FORM, 'no predicate') and kept[a][1]
            return (app(con('$all', a), s) if text == '!!' else neg(every(a, neg(app(lift(s, 1), var(0)))))), FORM
        elif self.at('$true', '$false'): return (FALSE if self.take(text) == '$false' else neg(FALSE)), FORM
        elif self.passed('('):
            operator, closed = self.ts[self.i][1], self.ts[self.i + 1][1] == ')'
            if closed and self.passed('~'): x = lam(FORM, neg(var(0))), PREDICATE
            elif closed and self.passed(*JOINS): x = lam(FORM, lam(FORM, JOINS[operator](var(1), var(0)))), arrow(FORM, PREDICATE)
            else: x = self.whole()
            return self.take(')') and x
        refuse('unknown ' + text)
    def bound(self, binder):
        many, types = binder in '!?^', []
        self.take('[')
        while not types or many and self.passed(','):
            name = self.word('upper')
            types.append(self.type() if self.passed(':') else INDIV)
            self.scope.append((name, types[-1]))
        self.take(']'); self.take(':')
        t, b = self.unit()
        need(binder == '^' or b == FORM, 'no formula behind a binder')
        for a in reversed(types):
            self.scope.pop()
            if binder == '^': t, b = lam(a, t), arrow(a, b)
            elif many: t = every(a, t) if binder == '!' else neg(every(a, neg(t)))
            else: t, b = app(con('$eps' if binder == '@+' else '$the', a), lam(a, t)), a
        return t, b
    @remembered
    def unfolded(self, t, n):  # the term with the first n definitions that are taken unfolded
        return dict(self.taken[:n]).get(t) or same_with(t, [self.unfolded(u, n) for u in parts(t)])
    def definition(self, t):  # the name and the term of the definition that is taken from a marked formula, if one is
        head, args = spine(t)
        if kept[head][1] != '$eq' or len(args) != 2 or kept[args[0]][1:2] != ('n',): return None
        c, u = args[0], self.unfolded(args[1], len(self.taken))
        used = mentions(u, c) or any(c == d or mentions(v, c) for d, v in self.taken)
        return None if used or size(u) > 100000 else (c, u)
    @remembered
    def declared(self, a): return self.declared(kept[a][1]) and self.declared(kept[a][2]) if is_arrow(a) else a in self.bases
    def constant(self, what, which, witnesses=()):  # the type of a constant, or None
        if what == 'n': return self.consts.get(which)
        if what == '$w': return witnesses[which] if which < len(witnesses) else None
        if which is None: return {'$f': FORM, '$not': PREDICATE, '$imp': arrow(FORM, PREDICATE)}[what]
        a, p = which, arrow(which, FORM)
        return {'$all': arrow(p, FORM), '$eq': arrow(a, p)}.get(what, arrow(p, a)) if self.declared(a) else None
    @remembered
    def normal(self, t, scope=()):  # the normal form; `scope` has the types of the free variables, innermost last
        if scope and free(t) == 0: return self.normal(t)
        node = kept[t]
        if node[0] == 'var': return eta(scope[-1 - node[1]], t)
        if node[0] == 'con': return eta(self.constant(*node[1:]), t)
        if node[0] == 'lam': return lam(node[1], self.normal(node[2], scope + (node[1],)))
        return apply(self.normal(node[1], scope), self.normal(node[2], scope))
    def start(self, unfold):
        signed = [(True, t) for t in (self.left if unfold else [t for t, _ in self.assumed])]
        if self.conjecture is not None: signed.append((False, self.conjecture))
        return {literal(self.normal(self.unfolded(t, len(self.taken) * unfold)), sign) for sign, t in signed}
def literal(t, sign=True):
    while kept[t][:2] == ('app', NOT): t, sign = kept[t][2], not sign
    return sign, t
def opposite(l): return not l[0], l[1]

# ---- the text ----
class Form(Exception): pass
class Refused(Exception): pass
NUMBER, LOWER = r'(0|[1-9][0-9]{0,19})', r'[a-z][A-Za-z0-9_]*'
NAME = r"(%s|'(?:[ -&(-\[\]-~]|\\['\\])+')" % LOWER
RULE = re.sub(r'\bN\b', lambda _: NUMBER,
              r'(?:(False|Refl|Imp[+-]|Bool[+-]|Fun[+-]|All-|Dec)\(N\)|(Close|Mat|Con)\(N,N\)|(All\+)\(N;|(Cho|Des|Cut)\()')
HEAD = r'#N|(\$w)N|\$(?:f|not|imp)|(\$(?:all|eq|eps|the))\[|'.replace('N', NUMBER) + NAME
START, END = '% SZS output start Refutation for ', '% SZS output end Refutation for '
class Line:  # reads one line of a text; `depth` is how many parentheses, brackets and functions are open
    def __init__(self, text): self.s, self.i = text, 0
    def match(self, pattern):
        m = re.compile(pattern).match(self.s, self.i)
        self.i = m.end() if m else self.i
        return m
    def take(self, pattern): return self.match(pattern) or self.fail()
    def fail(self): raise Form
    def number(self, digits, bits=64): return int(digits) if int(digits) < 2 ** bits else self.fail()
    def name(self, text): return self.fail() if text[0] == "'" and re.fullmatch(LOWER, unquoted(text)) else unquoted(text)
    def open(self, depth): return depth + 1 if depth < 8192 else self.fail()
    def type(self, depth):
        if self.match(r'\('):
            a, _, b, _ = self.type(self.open(depth)), self.take('>'), self.type(depth + 1), self.take(r'\)')
            return arrow(a, b)
        m = self.take(r'\$[oi]|' + NAME)
        return keep('n' + self.name(m[1]) if m[1] else m[0])
    def head(self, depth):
        m = self.take(HEAD)
        if m[1]: return var(self.number(m[1], 32))
        if m[2]: return con('$w', self.number(m[3], 32))
        if m[5]: return con('n', self.name(m[5]))
        if not m[4]: return con(m[0])
        return con(*(m[4], self.type(self.open(depth)), self.take(']'))[:2])
    def term(self, depth=0):
        if self.match(r'\^'):
            a, _ = self.type(self.open(depth)), self.take(r'\.')
            return lam(a, self.term(depth + 1))
        if not self.match(r'\('): return self.head(depth)
        t = app(self.head(self.open(depth)), self.take(' ') and self.term(depth + 1))
        while self.match(' '): t = app(t, self.term(depth + 1))
        return self.take(r'\)') and t
    def literal(self):
        sign, t = self.take('[+-]')[0] == '+', self.term()
        return self.fail() if spine(t)[0] == NOT else (sign, t)
    def listed(self, one):
        self.take(r'\[')
        out = [] if self.match('(?=])') else [one()]
        while out and self.match(','): out.append(one())
        return self.take(']') and out
    def child(self): return None if self.match('x') else self.number(self.take(NUMBER)[0])
    def whole(self, k):  # a numbered line: its rule, its places, the term or the literal that it takes, its branch, its children
        self.take('%d: ' % k)
        m, taken = self.take(RULE), None
        if m[6] or m[8]: taken, _ = self.literal() if m[8] == 'Cut' else self.term(), self.take(r'\)')
        _, branch, _, children = self.take(' '), self.listed(self.literal), self.take(' '), self.listed(self.child)
        return m[1] or m[3] or m[6] or m[8], [self.number(m[i]) for i in (2, 4, 5, 7) if m[i]], taken, branch, children
def read_text(data):  # the definitions, the rows and the lines of a text, and the number of the line behind the definitions
    texts = data.decode('latin-1').split('\n')
    if not texts[-1]: texts.pop()
    first = next((i for i, s in enumerate(texts) if s.startswith(START)), None)
    if first is None: raise Refused(len(texts) + 1, 'start')
    version, names, rows, lines = None, [], [], []
    for i in range(first + 1, len(texts)):
        line = Line(texts[i])
        try:
            if not version: version = line.take('version ([12])')[1]
            elif line.s.startswith(END) and (version == '1' or names): return names, rows, lines, first + 3 + len(names)
            elif version == '2' and not rows and not lines and (not names or line.s.startswith('d')):
                names.append(line.name(line.take('d ' + NAME)[1]))
            elif not lines and line.match('w%d ' % len(rows)): rows.append(line.term())
            else: lines.append(line.whole(len(lines)))
            if line.i < len(line.s): raise Form
        except Form: raise Refused(i + 1, 'form')
    raise Refused(len(texts) + 1, 'end')

# ---- the check ----
class Check:
    def __init__(self, problem, strict):
        self.p, self.strict, self.witnesses, self.rows, self.lines, self.types = problem, strict, [], {}, [], {}
    def canonical(self, t, scope=[]):  # the type of a canonical term; `scope` has the types of its free variables, innermost last
        if t in self.types: return self.types[t]
        types, body = [], t
        while binders(body): types.append(kept[body][1]); body = kept[body][2]
        (head, args), inside = spine(body), scope + types if types else scope
        a = self.head_type(head, inside)
        for u in args: a = kept[a][2] if a and is_arrow(a) and self.canonical(u, inside) == kept[a][1] else None
        a = None if a and is_arrow(a) else a
        for b in reversed(types): a = a and self.p.declared(b) and arrow(b, a)
        if a and free(t) == 0: self.types[t] = a
        return a
    def head_type(self, head, scope=()):
        kind, k = kept[head][:2]
        if kind == 'con': return self.p.constant(*kept[head][1:], self.witnesses)
        return scope[-1 - k] if k < len(scope) else None
    def predicate(self, t):  # the type of which t is a canonical predicate, if it is one
        a = self.canonical(t)
        return kept[a][1] if a and is_arrow(a) and kept[a][2] == FORM else None
    def row(self, f):
        a = self.predicate(f)
        if not a: return 'type'
        if f in self.rows: return 'twice'
        self.rows[f] = con('$w', len(self.witnesses))
        self.witnesses.append(a)
    def line(self, name, places, taken, branch, children):
        typed = {'All+': self.canonical, 'Cut': lambda l: self.canonical(l[1]) == FORM}.get(name, self.predicate)
        if taken and not typed(taken) or any(self.canonical(t) != FORM for _, t in branch): return 'type'
        if self.strict and name == 'Cut': return 'cut'
        alternatives = self.alternatives(name, [branch[i] for i in places], taken) if all(i < len(branch) for i in places) else None
        if alternatives is None: return 'principal'
        if len(children) != len(alternatives): return 'child'
        for child, here in zip(children, [set(branch + alternative) for alternative in alternatives]):
            closed = any(opposite(l) in here for l in here) if child is None else child < len(self.lines) and self.lines[child] <= here
            if not closed: return 'child'
        self.lines.append(set(branch))
    def differ(self, one, other):  # the alternatives that arguments of two terms with one compared head differ
        (head, ss), (same, ts) = spine(one), spine(other)
        if head != same or not ss or kept[head][1] not in ('n', '$w', '$eps', '$the'): return None
        a, out = self.head_type(head), []
        for s, t in zip(ss, ts): out.append([(False, equal(kept[a][1], s, t))]); a = kept[a][2]
        return out
    def alternatives(self, name, principals, taken):  # the alternatives of the rule, or None where it doesn't fit its principals
        if name == 'Cut': return [[taken], [opposite(taken)]]
        if name == 'Close': return [] if principals[1] == opposite(principals[0]) else None
        if name in ('Cho', 'Des'):
            a, f = self.predicate(taken), kept[taken][2]
            nowhere, chosen = literal(every(a, neg(f))), eta(a, app(con('$eps' if name == 'Cho' else '$the', a), taken))
            once = app(IMP, lift(f, 1), app(IMP, lift(f, 1, 1), equal(a, eta(a, var(1)), eta(a, var(0)))))
            return [[nowhere]] + [[opposite(literal(every(a, every(a, once))))]] * (name == 'Des') + [[literal(apply(taken, chosen))]]
        (sign, atom), (other, second) = principals[0], principals[-1]
        if sign != (name in ('False', 'Mat', 'Con') or name.endswith('+')) or len(principals) == 2 and other: return None
        head, args = spine(atom)
        what, a = kept[head][1:3] if kept[head][0] == 'con' else (None, None)
        if name == 'Mat': return self.differ(atom, second)
        if name == 'False': return [] if atom == FALSE else None
        if name == 'Refl': return [] if what == '$eq' and args[0] == args[1] else None
        if name == 'All+': return [[literal(apply(args[0], taken))]] if what == '$all' and self.canonical(taken) == a else None
        if name == 'All-':
            w = self.rows.get(args[0]) if what == '$all' else None
            return w and [[opposite(literal(apply(args[0], eta(a, w))))]]
        if name[:3] == 'Imp' and what == '$imp' or name[:4] == 'Bool' and what == '$eq' and a == FORM:
            s, t = map(literal, args)
            return {'Imp+': [[opposite(s)], [t]], 'Imp-': [[s, opposite(t)]], 'Bool+': [[s, t], [opposite(s), opposite(t)]],
                    'Bool-': [[s, opposite(t)], [opposite(s), t]]}[name]
        if name[:3] == 'Fun' and what == '$eq' and is_arrow(a):
            agree = literal(every(kept[a][1], equal(kept[a][2], kept[args[0]][2], kept[args[1]][2])))
            return [[agree if sign else opposite(agree)]]
        if name not in ('Dec', 'Con') or what != '$eq' or a == FORM or is_arrow(a): return None
        if name == 'Dec': return self.differ(*args)
        return [[(False, equal(a, s, x)) for s in args] for x in spine(second)[1]] if spine(second)[0] == head else None
def check(data, problem, strict=False):  # raises Refused, with the line and the word, where the text isn't accepted for the problem
    names, rows, lines, at = read_text(data)
    taken = [kept[c][2] for c, _ in problem.taken] if names else []
    for i in range(max(len(names), len(taken))):
        if names[i:i + 1] != taken[i:i + 1]: raise Refused(at - len(names) + i, 'defs')
    c, start = Check(problem, strict), problem.start(bool(names))
    for at, step in enumerate([(c.row, f) for f in rows] + [(c.line, *line) for line in lines], at):
        why = step[0](*step[1:])
        if why: raise Refused(at, why)
    if not lines: raise Refused(at + bool(rows), 'last')
    if not c.lines[-1] <= start: raise Refused(at, 'last')
def run(words, files):  # the report and the status for the words of a command line; `files` gives the bytes of a named file
    strict = words[:1] == ['--strict']
    if len(words) != 2 + strict: return __doc__, 2
    memo.clear()
    try: check(files(words[-2]), Problem(words[-1], files), strict)
    except Refused as why: return '%% refutation refused for %s line %d %s' % (words[-1], *why.args), 4
    except (Unreadable, OSError) as why: return 'check_text.py: %s' % why, 2
    return '% refutation accepted for ' + words[-1], 0
def deep(call):  # makes the call where it may nest as deep as terms do
    sys.setrecursionlimit(10 ** 6)
    threading.stack_size(2 ** 29)
    thread = threading.Thread(target=call)
    thread.start()
    thread.join()
def read_file(name): return pathlib.Path(name).read_bytes()
if __name__ == '__main__':
    answer = []
    deep(lambda: answer.extend(run(sys.argv[1:], read_file)))
    print((answer or ['check_text.py: it failed'])[0], file=sys.stdout if answer and answer[1] != 2 else sys.stderr)
    sys.exit(answer[1] if answer else 2)
