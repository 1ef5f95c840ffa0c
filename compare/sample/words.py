#!/usr/bin/env python3
"""Compares the stand-in's decoder with this repository's: class, condition, registers read and written, and flag of some 1.4 million words.

Usage: words.py WORDS DECODE, the paths of the built `words` and of this repository's `decode`.
"""
import random
import struct
import subprocess
import sys

BATCH = 16384


def cases():
    """Every case of the fields that decide a class, with the other bits at random."""
    for cond in (random.randrange(15), 15):
        for op in range(256):
            for odd in range(2):
                for low in range(16):
                    word = cond << 28 | op << 20 | random.getrandbits(20)
                    yield word & ~0x10F0 | odd << 12 | low << 4


def named():
    """Moves with every shift, block transfers with every mode and base, single transfers with every form and base and an offset close to 4, and
    every push and pop of one register."""
    for low in range(4096):
        for s in range(2):
            yield 0xE1A00000 | s << 20 | random.randrange(16) << 12 | low
    for high in range(512):
        for _ in range(16):
            yield 0xE8000000 | high << 16 | random.getrandbits(16)
    for high in range(1024):
        for offset in (0, 4, 5, 6, 8, 12, 0x104, 0x804):
            yield random.randrange(15) << 28 | 1 << 26 | high << 16 | random.randrange(16) << 12 | offset
    for word in (0x052D0004, 0x049D0004):
        for cond in range(16):
            for rd in range(16):
                yield cond << 28 | word | rd << 12


def main():
    random.seed(5)
    words = [word for _ in range(24) for word in cases()] + list(named()) + [random.getrandbits(32) for _ in range(60 * BATCH)]
    for i in range(0, len(words), BATCH):
        batch = b''.join(struct.pack('>I', word) for word in words[i:i + BATCH])
        ours, theirs = (subprocess.run(command, input=batch, capture_output=True, check=True).stdout.splitlines()
                        for command in ([sys.argv[2]], [sys.argv[1], 'decode']))
        if ours != theirs:
            sys.exit('\n'.join(f'{a.decode()} | {b.decode()}' for a, b in zip(ours, theirs) if a != b) or 'other lengths')
    print(f'{len(words)} words are equal')


if __name__ == '__main__':
    main()
