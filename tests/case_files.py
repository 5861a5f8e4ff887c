"""Reads the files of cases, as docs/CASES.md describes them: `cases` is what tests/texts.py and tests/hostile.py take from them."""

class Case:
    def __init__(self, name): self.name, self.files, self.words, self.end, self.text, self.faults = name, {}, [], None, bytearray(), False

def cases(path):
    """The cases of a file, as docs/CASES.md describes them."""
    out, common, case, part = [], {}, Case(''), None
    for line in open(path, 'rb').read().split(b'\n'):
        if not line or line.startswith(b'%'): continue
        if line[:1] in b'|>': part += line[1:] + (b'\n' if line[:1] == b'|' else b''); continue
        word, _, rest = line.partition(b' ')
        if word == b'fill': n, _, text = rest.partition(b' '); part += int(n) * text
        elif word == b'lines':
            n, _, text = rest.partition(b' ')
            for i in range(int(n)): part += text.replace(b'#', b'%d' % i) + b'\n'
        elif word == b'byte': part.append(int(rest))
        elif word == b'common': common, case = {}, Case('')
        elif word == b'case':
            case = Case(rest.decode())
            out.append((case, common))
        elif word == b'file': part = (case.files if case.name else common)[rest.decode()] = bytearray()
        elif word == b'word': part = bytearray(rest); case.words.append(part)
        elif word in (b'status', b'front', b'proof', b'start'): case.end, part = (word, rest), case.text
        elif word in (b'reads', b'writes', b'room'): case.faults = True
    for case, shared in out: case.files = {**shared, **case.files}
    return [case for case, _ in out]
