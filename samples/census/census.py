#!/usr/bin/env python3
"""How many of the 4,294,967,296 words each class has, under conditions 1110 and 1111 and under the others.

Makes crates/census/stdout: a line for each class, in the order of document 01, with its name and the two counts. The classes do not come from this
repository's decoder: they are the rows of the second classifier in samples/objdump/sample.py, written from the manual's diagrams and the naming rules,
of which the first that fits a word names it. No word is looked at: the rows are split bit by bit, from bit 27 down, and where the first row
that is left asks for no bit further down, all words that are left are its own.
"""

import functools
import os
import sys

HERE = os.path.dirname(os.path.abspath(__file__))
sys.path.insert(0, os.path.join(HERE, "../objdump"))
from sample import DIAGRAMS  # noqa: E402

ADDED = ["PUSH", "POP", "LSL", "LSR", "ASR", "ROR", "ILLEGAL"]


@functools.lru_cache(maxsize=None)
def counted(rows, bit):
    """(name, words) pairs for the words whose bits from `bit` down are free, by rows of name, fixed bits and their values."""
    if not rows:
        return (("ILLEGAL", 1 << bit + 1),)
    name, fixed, _ = rows[0]
    if not fixed & (1 << bit + 1) - 1:
        return ((name, 1 << bit + 1),)
    both = {}
    for value in (0, 1 << bit):
        left = tuple(row for row in rows if not row[1] & 1 << bit or row[2] & 1 << bit == value)
        for name, words in counted(left, bit - 1):
            both[name] = both.get(name, 0) + words
    return tuple(both.items())


def under(condition):
    """The words of each class under one condition."""
    rows = []
    for name, pattern in DIAGRAMS:
        if pattern.conditional and condition == 15:
            continue
        if not pattern.conditional and pattern.value >> 28 != condition:
            continue
        rows.append((name, pattern.fixed & 0xFFFFFFF, pattern.value & 0xFFFFFFF))
    return dict(counted(tuple(rows), 27))


def main():
    always, never, other = under(14), under(15), under(0)
    names = sorted({name for name, _ in DIAGRAMS} - set(ADDED)) + ADDED
    lines = [(name, always.get(name, 0) + never.get(name, 0), 14 * other.get(name, 0)) for name in names]
    assert len(lines) == 74 and sum(a + b for _, a, b in lines) == 2**32
    with open(os.path.join(HERE, "../../crates/census/stdout"), "w") as file:
        for line in lines:
            print(*line, file=file)


main()
