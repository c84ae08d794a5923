#!/usr/bin/env python3
"""Lists the places in src/ of which docs/DESIGN-PASS.md speaks, point by point.

python3 tools/places.py [FOLDER]      of a checkout; with --count only how many there are
"""
import re
import sys
from pathlib import Path

FOLDERS = [a for a in sys.argv[1:] if not a.startswith('-')]
TOP = Path(FOLDERS[0] if FOLDERS else '.')
COUNT = '--count' in sys.argv


def functions(text):
    """Of each function its name, the line where it begins, its head up to the body, and the body."""
    found = re.compile(r'^( *)(?:pub )?(?:extern "C" )?fn (\w+)', re.M)
    for m in found.finditer(text):
        inner = m.group(1)
        end = re.compile(r'^%s\}$' % inner, re.M).search(text, m.end())
        whole = text[m.start():end.end() if end else len(text)]
        body = re.search(r'(^%s\{$| \{$)' % inner, whole, re.M)
        cut = body.start() if body else len(whole)
        yield m.group(2), text.count('\n', 0, m.start()) + 1, whole[:cut], whole[cut:]


def without_comments(text):
    return re.sub(r'//[^\n]*', '', text)


def result_of(head):
    m = re.search(r'->\s*([^\n]+?)\s*$', head.split('\n    requires')[0].split('\n    ensures')[0], re.M)
    return m.group(1) if m else ''


def places():
    for path in sorted(TOP.glob('crates/*/src/*.rt')):
        crate = path.parts[-3]
        text = path.read_text()
        bare = without_comments(text)
        lines = bare.split('\n')
        functions_here = list(functions(bare))
        names = {f[0] for f in functions_here}

        for n, line in enumerate(lines, 1):
            where = f'{crate}:{n}'
            m = re.match(r'\s*(?:pub )?enum (\w+)', line)
            if m:
                yield '1 enum of its own', where, m.group(1)
            m = re.match(r'\s+(?:pub )?(\w+): bool,', line)
            if m and 'fn ' not in line and re.match(r'    (pub )?\w+: bool,$', line):
                yield '1 flag in a struct or beside parameters', where, m.group(1)
            for m in re.finditer(r'(?:Refused|Rule|Record)\((\d+)', line):
                yield '1 number of a rule', where, m.group(0)
            if re.match(r'\s*while ', line):
                yield '3 while', where, line.strip()
            if re.match(r'\s*for \w+ in [^{]*\.\.', line):
                yield '3 for over numbers', where, line.strip()
            if re.search(r'\b(k|i|e|at|end) [+-]= 1;', line):
                yield '3 number counted by hand', where, line.strip()
            if re.search(r'\bas (u8|u16|u32|u64|usize)\b', line):
                yield '4 cast', where, line.strip()
            if re.search(r'\b(wide|numbers::wide|number)\(', line) and 'fn ' not in line:
                yield '4 widening by a function', where, line.strip()
            if re.search(r'\b(smaller|numbers::smaller)\(', line) and 'fn ' not in line:
                yield '4 smaller by a function', where, line.strip()
            m = re.match(r'\s+(?:pub )?(len|count): (u8|usize),', line)
            if m:
                yield '6 length beside a buffer, or count beside numbers', where, line.strip()

        for name, at, head, body in functions_here:
            where = f'{crate}:{at}'
            result = result_of(head)
            said = ' '.join(text.split('\n')[max(0, at - 4):at - 1])
            said = said.rsplit('}', 1)[-1]
            if result in ('usize', 'u16', 'Nearest', 'Newest') and re.search(r'\bnone\b', said):
                yield '1 number that stands for none', where, name
            if result == 'bool' and '&mut' in head:
                yield '1 flag beside what is lent', where, name
            if name.endswith('_in') or name.endswith('_from') or name.endswith('_among'):
                yield '2 inner function of the same', where, name
            if re.match(r'same_|is_below|same$|copy$|put_row|slots_at|case_of|held_in|record_in|wide$|number$', name):
                yield '4 equality, order, copy or conversion by hand', where, name
            if re.search(r'symbols: &', head) and re.search(r'graphs: &', head):
                yield '5 the slices of entries one by one', where, name
            if 'treed: &' in head and 'reached: &' in head:
                yield '5 the two sets one by one', where, name
            if re.search(r'nodes: &', head) and re.search(r'marks: &', head):
                yield '5 the parts of a trail one by one', where, name
            clauses = re.split(r'\n\s+(?=requires|ensures)', head)
            needs = ' '.join(c for c in clauses if c.startswith('requires'))
            if re.search(r'm ≤ length rows|m ≤ most_nodes', needs):
                yield '5 so many rows, in a requires', where, name
            if re.search(r'length \w+\.\w+ ≡ (4|most_nodes|7)|IsSet', needs):
                yield '5 length of a set, of rows or of slots, in a requires', where, name
            if re.search(r'refusal table.now ≡', needs):
                yield '5 a table that is taken, in a requires', where, name
            if re.search(r'\bup: bool', head):
                yield '7 switch', where, name
            if re.search(r'if [^\n]* \{\n\s+return (true|false);\n\s+\}', body):
                yield '4 condition taken apart into returns', where, name

    answers = list(TOP.glob('crates/*/proofs/**/Answers.antt'))
    for path in answers:
        crate = path.parts[-4]
        for m in re.finditer(r'^\S+( \w+)* = search rules$', path.read_text(), re.M):
            yield '8 answer that says search rules alone', f'{crate}', path.parts[-2]


found = {}
for kind, where, what in places():
    found.setdefault(kind, []).append((where, what))
for kind in sorted(found):
    print(f'{kind}: {len(found[kind])}')
    if not COUNT:
        for where, what in found[kind]:
            print(f'    {where}  {what}')
print('proofs: %d answer files, %d lines in proofs/' % (
    len(list(TOP.glob('crates/*/proofs/**/Answers.antt'))),
    sum(len(p.read_text().split('\n')) - 1 for p in TOP.glob('crates/*/proofs/**/*.antt'))))
