#!/usr/bin/env python3
"""Lists the places in src/ that read like the older language, by the points of docs/DESIGN-PASS.md.

usage: python3 tools/places.py [--count] [FOLDER]

FOLDER is the top of the repository, this one where none is named. It reads the text of crates/*/src and crates/*/proofs,
so it finds candidates: which of them are places of their point is read off by eye, and said in docs/DESIGN-PASS.md.
With --count it prints the numbers alone.
"""
import os
import re
import sys
from collections import defaultdict

count_only = '--count' in sys.argv
rest = [a for a in sys.argv[1:] if not a.startswith('--')]
top = rest[0] if rest else '.'


def files(kind, suffix):
    for crate in sorted(os.listdir(os.path.join(top, 'crates'))):
        for folder, _, names in sorted(os.walk(os.path.join(top, 'crates', crate, kind))):
            for name in sorted(names):
                if name.endswith(suffix):
                    yield os.path.join(folder, name)


def shown(path):
    return os.path.relpath(path, os.path.join(top, 'crates'))


sources = {path: open(path).read() for path in files('src', '.rt')}
lines = [(path, n, line) for path, text in sources.items() for n, line in enumerate(text.split('\n'), 1)
         if not line.strip().startswith('//')]


def by(pattern, only=None):
    return [f'{shown(p)}:{n}: {line.strip()}' for p, n, line in lines
            if re.search(pattern, line) and (only is None or re.search(only, p))]


def enums():
    for path, text in sources.items():
        for m in re.finditer(r'^(?:pub(?:\([a-z]+\))? )?enum (\w+)(?:<[^>]*>)? \{\n(.*?)^\}', text, re.M | re.S):
            variants = re.findall(r'^    (\w+)(\(|\s*\{)?', m.group(2), re.M)
            body = re.sub(r'//.*', '', m.group(2))
            yield path, m.group(1), variants, body


def shaped():
    """Enums of the shape of Option (one case without data, the others with) or of Result (a case for a refusal, or two cases with data)."""
    for path, name, variants, body in enums():
        bare = [v for v, data in variants if not data]
        full = [v for v, data in variants if data]
        if (len(bare) == 1 and full) or (len(full) == 2 and not bare) or re.search(r'\(Fault\)', body) or (
                len(variants) == 3 and not full):
            yield f'{shown(path)}: {name} {{{", ".join(v for v, _ in variants)}}}'


def functions():
    for path, text in sources.items():
        for m in re.finditer(r'^ *(?:pub(?:\([a-z]+\))? )?fn (\w+)(?:<[^>]*>)?\((.*?)\)(?: -> [^{]*?)?\n?(?=\s|\{)', text, re.M | re.S):
            tail = text[m.end():]
            stop = re.search(r'^ *\{$|\{$', tail, re.M)
            clauses = tail[:stop.start()] if stop else ''
            names = re.findall(r'(?:^|,)\s*(?:mut )?(\w+):', m.group(2))
            yield path, m.group(1), tuple(names), clauses


def travelling():
    """Three parameters or more that stand side by side in three functions or more of one crate, as long a row as there is."""
    groups = defaultdict(set)
    for path, name, params, _ in functions():
        crate = shown(path).split('/')[0]
        for a in range(len(params)):
            for b in range(a + 3, len(params) + 1):
                groups[(crate, params[a:b])].add((path, name))
    for (crate, group), found in sorted(groups.items()):
        wider = any(c == crate and group != g and found <= f and ' '.join(group) in ' '.join(g)
                    for (c, g), f in groups.items())
        if len(found) >= 3 and not wider:
            yield f'{crate}: ({", ".join(group)}) in {len(found)} functions'


def facts():
    """What three functions or more of one crate require or ensure in the same words, but for .old, .new and .now."""
    groups = defaultdict(set)
    for path, name, _, clauses in functions():
        crate = shown(path).split('/')[0]
        for kind, fact in re.findall(r'(requires|ensures)(?: \w+)? \{ (.*?) \}$', clauses, re.M):
            fact = re.sub(r'\.(old|new|now|entry)\b', '', fact)
            for part in re.split(r' × ', fact):
                part = part.strip('() ')
                if not re.match(r'result ', part):
                    groups[(crate, part)].add((path, name))
    for (crate, fact), found in sorted(groups.items()):
        if len(found) >= 3:
            yield f'{crate}: {fact} in {len(found)} functions'


def without_equality():
    for path, text in sources.items():
        for m in re.finditer(r'((?:^#\[.*\]\n)*)^(?:pub(?:\([a-z]+\))? )?(?:enum|struct) (\w+)', text, re.M):
            if 'PartialEq' not in m.group(1):
                yield f'{shown(path)}: {m.group(2)}'


answers = [p for p in files('proofs', '.antt')]
points = [
    ('1 enums to be read for the shape of Option or Result', list(shaped())),
    ('1 flags among fields', by(r'^\s+(?:pub(?:\([a-z]+\))? )?\w+: bool,')),
    ('1 numbers for kinds', by(r'fn number\(self\) -> u|fn from_number\(|fn (?:\w+_key|name_of)\(|emit\(\d|aim\(\w+, \d|patch\(\w+, \d|const (?:PROGRAM|FUNCTION)|[!=]= 22|^\s+(?:[5-9]|1[0-5]) => bare_of', r'^(?!.*_tests)')),
    ('1 matches that hand an error or a None on by hand', by(r'(?:Err|None)(?:\(_?\w*\))? => (?:return )?(?:Err\(|None,|Ok\(false)|Err\(fault\) => Answer::Refused|Err\(problem\) => Err')),
    ('1 faults made by hand', by(r'Err\(Fault \{|= Fault \{|refusal\(', r'^(?!.*_tests)')),
    ('3 loops over numbers, and while', by(r'\bfor \w+ in .*\.\.|\bwhile\b|\bloop \{')),
    ('4 types without derived equality', list(without_equality())),
    ('4 conversion, equality and printing by hand', by(r'fn number\(self\) -> u|fn (?:from_number|same|is|text|of|to_\w+|\w*_name|\w*_text|type_of|numbered_of)\(', r'^(?!.*_tests)')),
    ('4 matches that answer a truth value', by(r'=> (?:true|false),')),
    ('5 parameters that travel together', list(travelling())),
    ('5 facts in three contracts or more', list(facts())),
    ('6 arrays in structs', by(r'^\s+(?:pub(?:\([a-z]+\))? )?\w+: \[(?:[ui]\d+|bool|[A-Z]\w*); ?[A-Z0-9_]+\]')),
    ('7 function pointers, dyn, boxes', by(r'\bdyn\b|\bBox<|: fn\(')),
    ('8 files of answers and lemmas', [shown(p) for p in answers]),
    ('8 lines in them', [''] * sum(len(open(p).read().split('\n')) - 1 for p in answers)),
    ('places that stay, with a line that says why', [f'{shown(p)}:{n}' for p, text in sources.items()
                                                      for n, line in enumerate(text.split('\n'), 1) if '// Stays ' in line]),
]
for title, found in points:
    print(f'{title}: {len(found)}')
    if not count_only and not title.startswith('8'):
        for line in found:
            print('    ' + line)
