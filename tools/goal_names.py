#!/usr/bin/env python3
"""Turns the names of goals and steps in proof files: a name of the source keeps its underscores, and in_ok, in_err,
in_default and invariant_of are words of their own.

It goes over the answers and invariants of each crate, and only over names behind a dot or before the sign of a
definition.
"""
import glob
import re

WORDS = {
    'in-ok': 'in_ok',
    'in-err': 'in_err',
    'in-default': 'in_default',
    'invariant-of': 'invariant_of',
    'from-residual': 'from_residual',
    'as-slice': 'as_slice',
    'as-bytes': 'as_bytes',
    'as-str': 'as_str',
    'overflow-add': 'overflow_add',
    'overflow-sub': 'overflow_sub',
    'overflow-mul': 'overflow_mul',
    'overflow-cast': 'overflow_cast',
    'overflow-step': 'overflow_step',
    'offset-bounds': 'offset_bounds',
    'slice-bounds': 'slice_bounds',
}
PART = re.compile(r"(?<=\.)[A-Za-z_][A-Za-z0-9_']*(?:-[A-Za-z0-9_']+)+|^(?:abbrev pub |pub )?[a-z_][A-Za-z0-9_']*(?:-[A-Za-z0-9_']+)+", re.M)
WAY = re.compile(r"(?:then|else|in)-[A-Za-z0-9_'+-]+")
BROUGHT = re.compile(r"^use [\w.+]+\.Goals\.\{.*\}$", re.M)


def identifiers(crate):
    out = set()
    for path in glob.glob(f'{crate}/src/**/*.rt', recursive=True):
        text = re.sub(r'//.*', '', open(path).read())
        out |= {w for w in re.findall(r'\b[A-Za-z][A-Za-z0-9]*(?:_[A-Za-z0-9]+)+\b', text)}
    return sorted(out, key=len, reverse=True)


def turned(token, names):
    for old, new in names:
        token = re.sub(rf'(?<![A-Za-z0-9_]){old}(?![A-Za-z0-9_])', new, token)
    return token


def main():
    for crate in sorted(glob.glob('crates/*')):
        names = [(w.replace('_', '-'), w) for w in identifiers(crate)] + list(WORDS.items())
        for path in glob.glob(f'{crate}/proofs/**/*.antt', recursive=True):
            if not path.endswith(('Answers.antt', 'Invariants.antt')):
                continue
            text = open(path).read()
            after = PART.sub(lambda m: turned(m.group(0), names), text)
            after = WAY.sub(lambda m: turned(m.group(0), names), after)
            after = BROUGHT.sub(lambda m: turned(m.group(0), names), after)
            if after != text:
                open(path, 'w').write(after)


if __name__ == '__main__':
    main()
