#!/usr/bin/env python3
"""Respells the definitions and lemmas of specs/ and proofs/ in snake_case, with all that names them: once, at the top, behind the kit's port.py.

A name is one that is declared there, or bound in a declaration's parameters, and has a capital after its first letter, which is small: `skipPool`
becomes `skip_pool`, `held-inOrder` `held-in_order`. Functions of src/, types, fields of types and strings keep their names.
"""
import glob
import re

WORD = r"[\w'′·₀-₉«»-]"
DECLARED = re.compile(rf'(?m)^\s*(?:abbrev |unfoldable |pub |mutual )*({WORD}+)(?: {WORD}+)* :')
BOUND = re.compile(r'[({]([^(){}:→\n]*) :')
USED = re.compile(r"(?<![\w'′·₀-₉-])([a-z][\w'′·₀-₉-]*)")
PLAIN = re.compile(r"^[a-z][a-zA-Z0-9′']*$")


def files(*patterns):
    return sorted(f for p in patterns for f in glob.glob(p, recursive=True) if '/out/' not in f)


def read(path):
    with open(path) as file:
        return file.read()


def snake(name):
    parts = name.split('-')
    return '-'.join(re.sub('(?<=[a-z0-9])([A-Z])', lambda m: '_' + m[1].lower(), p) if PLAIN.match(p) else p for p in parts)


def names():
    """Each old name with its new one."""
    texts = [read(f) for f in files('crates/*/specs/**/*.antt', 'crates/*/proofs/**/*.antt')]
    declared = {m[1] for text in texts for m in DECLARED.finditer(text)}
    bound = {n for text in texts for m in BOUND.finditer(text) for n in m[1].split() if re.match('^[a-z][a-z0-9]*[A-Z][a-zA-Z0-9]*$', n)}
    old = {n for n in declared if re.match('^[a-z]', n)} | bound
    return {n: snake(n) for n in old if snake(n) != n}


def main():
    new = names()
    for path in files('crates/*/specs/**/*.antt', 'crates/*/proofs/**/*.antt', 'crates/*/src/**/*.rt', 'crates/*/must-fail/*.edit',
                      'docs/**/*.md', 'README.md', 'compare/*.md'):
        text = read(path)
        turned = USED.sub(lambda m: new.get(m[1], m[1]), text)
        if turned != text:
            with open(path, 'w') as file:
                file.write(turned)
    print(len(new), 'names')


if __name__ == '__main__':
    main()
