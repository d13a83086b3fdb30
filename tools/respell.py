#!/usr/bin/env python3
"""Brings the repository's own words to one spelling: what is not a type or a module is in snake case.

Run once, at the top, after the kit's own script. It goes over each .antt file, the ghost lines and clauses of
each .rt file, and the words between backticks in docs/ and README.md. A word is renamed only where it begins
with a small letter and has a capital in it; Rust names never look so. It stops where two words would fall
together in one file. What TAKEN lists has another new name, since the plain one is taken.
"""
import collections
import glob
import re
import sys

WORD = re.compile(r"[A-Za-z_][A-Za-z0-9_']*(?:-[A-Za-z0-9_']+)*")
HUMP = re.compile(r"(?<=[a-z0-9])[A-Z]+")
# std has a lemma set_at
TAKEN = {'setAt': 'put_at', 'length-setAt': 'length-put_at'}
# lemmas that have the new name of what they speak of
LEMMAS = {
    'crates/replay/proofs/Steps.antt': {'flag_at'},
    'crates/safety/proofs/Declaring.antt': {'has_body'},
    'crates/safety/proofs/Lawful.antt': {'has_body', 'one_more'},
    'crates/stack/proofs/Runs.antt': {'by_number'},
}


def snake(part):
    if not part or not part[0].islower() or not HUMP.search(part):
        return part
    return HUMP.sub(lambda m: '_' + m.group(0).lower(), part)


def respelled(word, path=''):
    if word in TAKEN:
        return TAKEN[word]
    if word in LEMMAS.get(path, ()):
        return word + '_lem'
    return '-'.join(snake(p) for p in word.split('-'))


def files():
    out = glob.glob('crates/*/specs/**/*.antt', recursive=True)
    out += glob.glob('crates/*/proofs/**/*.antt', recursive=True)
    out += glob.glob('crates/*/src/**/*.rt', recursive=True)
    return sorted(out)


def in_quotes(text):
    return re.findall(r'"(?:[^"\\]|\\.)*"', text)


def main():
    clashes = []
    for path in files():
        text = open(path).read()
        words = set(WORD.findall(re.sub(r'Rattle(?:\.[\w+]+)+', '', text)))
        changed = {w: respelled(w, path) for w in words if respelled(w, path) != w}
        ours = set() if path.endswith('.rt') else words - set(changed)
        for quoted in in_quotes(text) if path.endswith('.rt') else []:
            for w in WORD.findall(quoted):
                if w in changed:
                    clashes.append(f'{path}: {w} stands in a text')
        new = collections.Counter(changed.values())
        for w, n in changed.items():
            if n in ours or new[n] > 1:
                clashes.append(f'{path}: {w} and {n} fall together')
    for line in clashes:
        print(line)
    if clashes and '--anyway' not in sys.argv:
        return 1
    if '--look' in sys.argv:
        return 0
    for path in files():
        text = open(path).read()
        after = WORD.sub(lambda m: respelled(m.group(0), path), text)
        if after != text:
            open(path, 'w').write(after)
    for path in glob.glob('docs/*.md') + ['README.md']:
        text = open(path).read()
        after = re.sub(r'`[^`\n]*`', lambda q: WORD.sub(lambda m: respelled(m.group(0)), q.group(0)), text)
        if after != text:
            open(path, 'w').write(after)
    return 0


if __name__ == '__main__':
    sys.exit(main())
