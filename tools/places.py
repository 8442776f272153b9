#!/usr/bin/env python3
"""Counts the places that docs/DESIGN-PASS.md speaks of, in the sources of a commit: tools/places.py [COMMIT] [--list].

With no commit it counts the files as they lie. A place is counted by its form, not by what it means: a line with 'Stays:' in the comment above a
function, a type or a loop says why it is as it is, and such a place is counted as kept.
"""
import re
import subprocess
import sys
from collections import defaultdict

STORE = ('levels', 'count', 'level', 'then', 'els', 'next', 'heads')
HEADER = ('f', 'starts', 'ends')


def sources(commit):
    if commit:
        names = subprocess.check_output(['git', 'ls-tree', '-r', '--name-only', commit, 'crates'], text=True).split('\n')
        for name in names:
            if re.fullmatch(r'crates/\w+/src/.*\.rt', name):
                yield name, subprocess.check_output(['git', 'show', f'{commit}:{name}'], text=True)
    else:
        names = subprocess.check_output(['git', 'ls-files', 'crates'], text=True).split('\n')
        for name in names:
            if re.fullmatch(r'crates/\w+/src/.*\.rt', name):
                with open(name, encoding='utf-8') as file:
                    yield name, file.read()


def block(text, at):
    """From an opening brace to the one that closes it."""
    depth = 0
    for i in range(at, len(text)):
        depth += {'{': 1, '}': -1}.get(text[i], 0)
        if depth == 0:
            return text[at:i + 1]
    return text[at:]


def comment(text, at):
    """The comment lines above a place."""
    lines = text[:at].split('\n')[:-1]
    said = []
    while lines and re.match(r'\s*(//|#\[)', lines[-1]):
        said.append(lines.pop())
    return '\n'.join(said)


def functions(text):
    for m in re.finditer(r'^( *)(?:pub )?(?:unsafe extern "C" |extern "C" )?fn (\w+)', text, re.M):
        at = text.index('(', m.end())
        depth, end = 0, at
        for end in range(at, len(text)):
            depth += {'(': 1, ')': -1}.get(text[end], 0)
            if depth == 0:
                break
        after = re.compile(r'^' + m.group(1) + r'(?:\{|\})|\{\n', re.M)
        clauses = text[end:]
        line = '\n' + m.group(1) + '{\n'
        first = clauses.find('{\n')
        own = clauses.find(line)
        start = end + (own + len(line) - 2 if own >= 0 and (first < 0 or own <= first) else max(first, 0))
        result = re.match(r'\s*->\s*([^\n{]+)', text[end + 1:])
        parameters = [p.strip() for p in re.split(r',(?![^<\[(]*[>\])])', text[at + 1:end]) if p.strip()]
        yield m, parameters, (result.group(1).strip() if result else ''), block(text, start)


def places(commit):
    found = defaultdict(list)
    together = defaultdict(list)
    for name, text in sources(commit):
        crate = name.split('/')[1]

        def add(point, at, what):
            found[point].append((crate, what, 'Stays:' in comment(text, at)))

        for m in re.finditer(r'^ *pub enum (\w+)|^ *enum (\w+)', text, re.M):
            cases = re.findall(r'^    (\w+)(\(.*\)| \{|),?$', block(text, text.index('{', m.end())), re.M)
            what = m.group(1) or m.group(2)
            with_value = [c for c in cases if c[1]]
            if any(c[0] == 'Refused' for c in cases):
                add('1 enum like Result', m.start(), what)
            elif len(cases) == 2 and len(with_value) == 1:
                add('1 enum like Option', m.start(), what)
        for m in re.finditer(r'^ *pub struct (\w+)', text, re.M):
            body = block(text, text.index('{', m.end())) if text[m.end():].lstrip(" <>'a_").startswith('{') else ''
            if re.search(r': bool,', body) and 'repr(C)' not in comment(text, m.start()):
                add('1 flag beside a value', m.start(), m.group(1))
        for m in re.finditer(r'^pub const (\w+): u8 = \d+;', text, re.M):
            add('1 number of a kind', m.start(), m.group(1))
        for m, parameters, result, body in functions(text):
            what = m.group(2)
            names = [p.split(':')[0].strip() for p in parameters]
            if result == 'u8' and re.search(r'refusal::|fault|Refusal::|found', body):
                add('1 refusal as a number', m.start(), what)
            if any(re.fullmatch(r'(found|fault|n|k|refusal): u8', p) for p in parameters):
                add('1 refusal as a number', m.start(), what + ' (parameter)')
            for w in re.finditer(r'^( *)while ([^\n]*)\{$', body, re.M):
                counters = re.findall(r'\b([a-z]\w*)\b', w.group(2))
                inside = block(body, w.end() - 1)
                if any(re.search(rf'^\s*{c} (\+|-)= 1;', inside, re.M) or re.search(rf'{c} = {c} [+-] 1;', inside) for c in counters):
                    stays = 'Stays:' in comment(body, w.start()) or 'Stays:' in comment(text, m.start())
                    found['3 counted loop'].append((crate, what, stays))
            if re.search(r'(^|_)(same|eq|cmp|less|copy|clone|from|of|to)(_|$)', what) and len(body) < 900 and 'for ' not in body:
                if re.search(r'match \w+ \{', body) and len(re.findall(r'=>', body)) > 1 or re.search(r'\.len\(\) != \w+\.len\(\)', body) or what == 'same':
                    add('4 by hand', m.start(), what)
            if len(set(names) & set(STORE)) >= 3:
                add('5 lists of a store', m.start(), what)
            if set(HEADER) <= set(names):
                add('5 file and spans', m.start(), what)
            for pair in (('index', 'width'), ('starts', 'lens'), ('rootstarts', 'rootlens'), ('out', 'at')):
                if set(pair) <= set(names):
                    add('6 ' + ' beside '.join(pair), m.start(), what)
            if re.search(r'match (op|which|step|kind|call|reader) \{', body):
                add('7 switch', m.start(), what)
    return found


def main():
    commit = next((a for a in sys.argv[1:] if not a.startswith('-')), None)
    found = places(commit)
    for point in sorted(found):
        kept = sum(1 for p in found[point] if p[2])
        print(f'{point}: {len(found[point])}, of them with a reason beside them {kept}')
        if '--list' in sys.argv:
            for crate, what, stays in found[point]:
                print(f'    {crate}::{what}' + (' stays' if stays else ''))


main()
