#!/usr/bin/env python3
"""Compares tools/check_text.py with what the cases and the examples say. Each text that a case checks is accepted or refused by both, at
the same line and with the same word. Each text that a case has in a report is accepted. With a program (SATALLAX, or out/satallax where it
is built) the texts of `proof` cases and of the examples, by each mode and schedule, are taken from it and are to be accepted. Without one
they are left out, and the last line says how many. Ends with 1 where there is a difference."""
import os, re, subprocess, sys, tempfile
sys.dont_write_bytecode = True
top = os.path.dirname(os.path.dirname(os.path.realpath(__file__)))
sys.path.insert(0, os.path.join(top, 'tools'))
import check_text
from case_files import cases

START, WORD = b'% SZS output start Refutation for ', re.compile(rb'% refutation (accepted|refused) for ')
NAME = re.compile(START + rb'(.*)')
data = os.path.join(top, 'crates/test_cases/data')
program = os.environ.get('SATALLAX') or os.path.join(top, 'out/satallax')
program = program if os.access(program, os.X_OK) else None
counts = {'texts checked': 0, 'texts accepted': 0, 'left out': 0}
wrong = []

def compare(where, words, files, wanted, status):
    def read(name):
        if name not in files: raise OSError('no file ' + name)
        return bytes(files[name])
    got = check_text.run(words, read)
    if got != (wanted, status): wrong.append('%s: %s and not %s' % (where, got, (wanted, status)))

def accepted(where, text, name, files):
    counts['texts accepted'] += 1
    compare(where, ['its text', name], {**files, 'its text': text}, '% refutation accepted for ' + name, 0)

def prove(words, folder):
    return subprocess.run([program] + words, cwd=folder, stdout=subprocess.PIPE).stdout

def try_case(where, case):
    words, (end, rest) = [w.decode() for w in case.words], case.end
    words = [x for w in words for x in (w.split('=', 1) if w.startswith(('--check=', '--strict=')) else [w])]
    if case.faults or end == b'start': return
    if len(words) == 3 and words[0] in ('--check', '--strict') and WORD.match(case.text):
        counts['texts checked'] += 1
        compare(where, words[words[0] == '--check':], case.files, case.text.decode().rstrip('\n'), int(rest))
    elif START in case.text and b'\n% SZS output end' in case.text and '--demo' not in words:
        accepted(where, case.text, NAME.search(case.text)[1].decode(), case.files)
    elif end == b'proof' and not program: counts['left out'] += 1
    elif end == b'proof':
        with tempfile.TemporaryDirectory() as folder:
            for name, content in case.files.items():
                if '/' not in name: open(os.path.join(folder, name), 'wb').write(content)
            accepted(where, prove(words, folder), rest.decode(), case.files)

def everything():
    for name in sorted(os.listdir(data)):
        if name == 'wrong.cases': continue
        for case in cases(os.path.join(data, name)):
            check_text.memo.clear()
            try_case('%s: %s' % (name, case.name), case)
    os.chdir(top)
    class Disk(dict):
        def __contains__(self, name): return dict.__contains__(self, name) or os.path.exists(name)
        def __missing__(self, name): return open(name, 'rb').read()
    examples = ['examples/' + p for p in sorted(os.listdir('examples')) if p.endswith('.p')]
    ways = [['--' + f.rsplit('.', 1)[1], 'modes/' + f] for f in sorted(os.listdir('modes')) if f.endswith(('.mode', '.schedule'))]
    for words in [way + [p] for way in [[], *ways] for p in examples]:
        if not program: counts['left out'] += 1
        else:
            text = prove(words, top)
            if START in text:
                counts['texts accepted'] += 1
                got = check_text.run(['its text', words[-1]], lambda name: text if name == 'its text' else check_text.read_file(name))
                if got[1]: wrong.append('%s: %s' % (' '.join(words), got[0]))

check_text.deep(everything)
for line in wrong: print(line)
print(', '.join('%d %s' % (n, what) for what, n in counts.items()) + ', %d differences' % len(wrong))
sys.exit(1 if wrong else 0)
