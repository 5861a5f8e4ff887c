#!/usr/bin/env python3
"""Looks whether each link in the documents leads to a file of the repository, or to a heading of one, whether each crate has a README, and
whether the tables of docs/TRUST.md are those that tools/reading_list makes of the sources, and whether README names the number of lines that
is computed there for the first claim. Needs no program. Ends with 1 where something is wrong."""
import os, re, subprocess, sys
top = os.path.dirname(os.path.dirname(os.path.realpath(__file__)))
wrong = []

def documents():
    for folder, folders, names in os.walk(top):
        folders[:] = [f for f in folders if f not in ('.git', 'out', 'target')]
        for name in names:
            if name.endswith('.md'): yield os.path.join(folder, name)

def headings(path):
    """The names by which a link finds the headings of a document."""
    text = re.sub(r'(?ms)^```.*?^```', '', open(path, encoding='utf-8').read())
    return {re.sub(r'[^\w\- ]', '', h.strip().lower()).replace(' ', '-') for h in re.findall(r'(?m)^#+ (.*)$', text)}

links = 0
for path in sorted(documents()):
    text = re.sub(r'(?ms)^```.*?^```|`[^`\n]*`', '', open(path, encoding='utf-8').read())
    for target in re.findall(r'\]\(([^)\s]+)\)', text):
        if re.match(r'[a-z]+:', target): continue
        links += 1
        name, _, heading = target.partition('#')
        file = os.path.normpath(os.path.join(os.path.dirname(path), name)) if name else path
        if not os.path.exists(file): wrong.append('%s: no file %s' % (os.path.relpath(path, top), target))
        elif heading and heading not in headings(file): wrong.append('%s: no heading %s' % (os.path.relpath(path, top), target))
for crate in sorted(os.listdir(os.path.join(top, 'crates'))):
    if not os.path.exists(os.path.join(top, 'crates', crate, 'README.md')): wrong.append('crates/%s has no README.md' % crate)
command = [os.path.join(top, 'tools/reading_list'), '--check', os.path.join(top, 'docs/TRUST.md')]
list_check = subprocess.run(command, stderr=subprocess.PIPE, text=True)
if list_check.returncode: wrong.append(list_check.stderr.strip())
trust = open(os.path.join(top, 'docs/TRUST.md'), encoding='utf-8').read()
to_read = re.search(r'(?m)^\| +\| in all \| (\d+) \|$', trust)
named = re.search(r'what to read: ([\d,]+) lines for the first', open(os.path.join(top, 'README.md'), encoding='utf-8').read())
if not to_read or not named or named[1].replace(',', '') != to_read[1]:
    wrong.append('README.md: %s lines to read for the first claim, and TRUST.md has %s' % (named and named[1], to_read and to_read[1]))
for line in wrong: print(line)
print('%d links, %d wrong' % (links, len(wrong)))
sys.exit(1 if wrong else 0)
