#!/usr/bin/env python3
"""Makes stdin and stdout of `crates/walks`: requests for the walk, and what must be written for each, with the lists after every step.

Usage: walk.py WALK

WALK is the path of the built `walk`. With the original's answers: the planned requests, code and options at random, the functions of rich.py,
and planned requests and rich functions with a few words changed; then the examples of examples.py. The seed is fixed, so the files come out
the same. What is said of the original's answers is counted, printed and asserted: every outcome is there, a quarter are accepted with rich
lists, and a fifth of the functions of rich.py, every fourth of which is made so, are accepted, entered and left by one register. fresh.py makes
others for a longer comparison.
"""
import collections
import pathlib
import random
import re
import struct
import subprocess
import sys

from machines import (
    ADD, AL, ASR, CMP, EOR, EQ, GE, GT, HI, LE, LR, LS, LSL, LSR, LT, MI, NE, NV, PC, ROR, SP, SUB, TOP,
    block, branch, bx, by_register, by_shift, compare, data, imm, mov, near_misses, pop, pop_one, push, push_one, shifted, transfer,
)

SEED = 20261115
AT_RANDOM, RICH, CHANGED = 306, 900, 500
BASE = 0x02000000
LOW = 0x01FF8000
HIGH = 0x03000000


class Request:
    """A walk over `code`; addresses but for the base are given as offsets from it."""

    def __init__(self, words, base=BASE, module=None, start=0, known=None, check=0, existing=(), tail=b''):
        self.code = b''.join(struct.pack('<I', word) for word in words) + tail
        self.base = base
        first, last = module if module is not None else (0, len(self.code))
        self.numbers = [base, base + first, base + last, base + start, base + known if known is not None else 0]
        self.check = check
        self.existing = sorted(base + offset for offset in set(existing))

    def pack(self):
        body = struct.pack('>5IB', *self.numbers, self.check)
        if self.existing:
            body = b'\2' + body + struct.pack(f'>{len(self.existing) + 1}I', len(self.existing), *self.existing)
        else:
            body = b'\1' + body
        body += self.code
        return struct.pack('>I', len(body)) + body

    def word(self, address):
        return struct.unpack_from('<I', self.code, address - self.base)[0]

    def words(self):
        return list(struct.unpack_from(f'<{len(self.code) // 4}I', self.code))


# ---- words

RETURN = bx(LR)
NOP = mov(0, shifted(0))
STEP = data(ADD, 1, 1, imm(1))


def b(at, to, cond=AL, link=0):
    """A branch at one word to another, counted in words."""
    return branch(to - at - 2, cond, link)


def pool(at, to, rd=0, cond=AL):
    """A load at one word of another, counted in words."""
    offset = 4 * (to - at - 2)
    return transfer(1, rd, PC, abs(offset), u=int(offset >= 0), cond=cond)


def jump(index, cond):
    return data(ADD, PC, PC, shifted(index, LSL, 2), cond)


def sub_pc(rd, at, table):
    """So that the table begins at that byte; only for distances that one rotation holds."""
    distance = 0x108 + at - table
    for rotation in range(16):
        byte = (distance << 2 * rotation | distance >> 32 - 2 * rotation) & TOP
        if byte < 256:
            return data(SUB, rd, PC, imm(byte, rotation))
    raise ValueError(distance)


def table_load(base, rd=2, rm=3, amount=4):
    return transfer(1, rd, base, by_shift(rm, LSR, amount), byte=1)


# The refusals' examples, 5 to 8 and 10 to 12.
REFUSED = ([0xE7F000F0], [0xE1A01101, 0xE8810001], [0xE7810001], [0xE89F8000], [0xE59F0FFF], [0xE1A00004], [0xE3500101, 0x908FF100])


def planned():
    """The marked runs, the refusals' examples, and readings that are easy to get wrong."""
    c1 = [0xE59F0000, 0xE12FFF1E, 0x12345678]
    c8 = [0xE3500002, 0x908FF100, 0xEA000002, 0xEA000001, 0xEA000000, 0xEAFFFFFF, 0xE12FFF1E]
    yield Request(c1, check=1)
    yield Request(c1, module=(0, 8))
    yield Request([RETURN])
    yield Request([])
    yield Request([0xEAFFFFFE])
    yield Request([0x0AFFFFFD], base=LOW)
    yield Request([0xEA00003E, RETURN])
    yield Request(c8)
    yield Request([0xE59FC000, 0xE12FFF1C, 0])
    yield Request([0xE3500000, 0xE3500000, 0x908FF100, RETURN])
    yield Request([RETURN], module=(0, 8), known=8)
    for check in (0, 1):
        yield Request([0xE1A00004, RETURN], check=check)
    for words in REFUSED:
        yield Request(words, check=1)
    yield Request([0xEAFFFFFD], base=LOW)

    # Code that runs out, in words and in bytes; an end that is not where the code's is.
    yield Request([NOP])
    yield Request([NOP], tail=b'\x1e\xff\x2f')
    yield Request([NOP, RETURN], module=(0, 4))
    yield Request([NOP, RETURN], module=(0, 0x100))
    yield Request([NOP, RETURN], module=(4, 8))
    yield Request([NOP, RETURN, NOP], start=4)
    yield Request([NOP, RETURN], start=8)
    for known in (0, 4, 8, 12):
        yield Request([NOP, RETURN, NOP], known=known)
    yield Request([NOP, NOP, RETURN], start=8, known=4)
    yield Request(c1, known=8)
    yield Request(c1, module=(0, 8), known=8)

    # Returns and what looks like them.
    for word in (
            bx(3), bx(LR, NE), mov(PC, shifted(LR)), mov(PC, shifted(LR), s=1), mov(PC, imm(4)), mov(PC, shifted(1, LSL, 2)), mov(PC, shifted(1, ROR, 0)),
            block(1, 4, 0x8010), block(1, 4, 0x8010, 2), block(1, SP, 0x8010, 1, 1, 1), block(1, 4, 0x4010), pop(0x8000), pop(0x4000), pop(0x8000, EQ),
            data(SUB, PC, LR, imm(4), s=1), data(SUB, PC, LR, imm(4)), data(SUB, PC, LR, shifted(1), s=1), data(SUB, PC, 1, imm(4), s=1),
            transfer(1, PC, SP, 4, p=0), transfer(1, PC, PC, 8), transfer(1, PC, 1, 8, w=1, cond=NE), transfer(1, PC, 1, 0, p=0, w=1),
            data(EOR, PC, 1, by_register(2, ROR, 3)), data(EOR, PC, 1, by_register(2, ROR, 3), s=1), data(EOR, PC, 1, by_register(2, LSR, 3)),
            data(EOR, PC, 1, shifted(2, ROR, 3)), data(ADD, PC, 1, shifted(2, LSL, 2)), data(ADD, PC, 1, shifted(2)), data(ADD, PC, PC, shifted(2, LSL, 2)),
            data(ADD, PC, 1, shifted(2, LSR, 2)), data(ADD, PC, 1, by_register(2, LSL, 3)), data(ADD, PC, 1, imm(8))):
        yield Request([NOP, word, STEP, RETURN])
    for four in (imm(4), imm(1, 15), imm(16, 1), imm(0x40, 2), imm(5)):
        for follow in (b(1, 0, NE), b(1, 2, NE), b(1, 3, NE), b(1, 3, EQ), b(1, 0x100, NE), branch(-0x100, NE)):
            yield Request([data(ADD, 0, 0, four, s=1), follow, STEP, RETURN])
    yield Request([data(ADD, 0, 0, imm(4), s=1), NOP, b(2, 0, NE), RETURN])
    yield Request([data(ADD, 0, 0, imm(4)), b(1, 0, NE), RETURN])
    yield Request([data(ADD, 0, 0, imm(4), NE, 1), b(1, 0, NE), RETURN])

    # Conditional blocks: a return inside, at the end and past it.
    yield Request([b(0, 2, EQ), RETURN, RETURN, NOP])
    yield Request([b(0, 3, EQ), RETURN, NOP, RETURN])
    yield Request([b(0, 0, EQ), RETURN])
    yield Request([b(0, 4, EQ), b(1, 5), RETURN, RETURN, RETURN, RETURN, RETURN])
    yield Request([b(0, 3), RETURN, NOP, RETURN, RETURN])
    yield Request([b(0, 3, EQ), b(1, 0), NOP, RETURN])
    yield Request([NOP, b(1, 0), RETURN])
    yield Request([NOP, NOP, b(2, 1), RETURN], start=4)
    yield Request([NOP, NOP, b(2, 0), RETURN], start=4)

    # An entry after a branch.
    entry, conditional_entry = push(0x4010), push(0x4010, NE)
    for first in (b(0, 2, EQ), b(0, 2), b(0, 3, EQ), b(0, 0x40), b(0, 0x40, EQ), b(0, 2, AL, 1)):
        for second in (entry, conditional_entry, push(0x10), block(0, SP, 0x4010, 2), block(0, SP, 0x4010, 2, 1, 1)):
            yield Request([first, second, STEP, RETURN, RETURN])
    yield Request([b(0, 3, EQ), b(1, 0x40), entry, RETURN])
    yield Request([b(0, 3, EQ), NOP, entry, RETURN])
    yield Request([pool(0, 2), NOP, b(2, 5, EQ), entry, RETURN, RETURN])
    yield Request([pool(0, 2), NOP, b(2, 5), entry, RETURN, RETURN])

    # Branches out of the module, to known functions, and calls.
    for cond in (AL, EQ):
        yield Request([NOP, b(1, 0x40, cond), RETURN])
        yield Request([NOP, b(1, -0x40, cond), RETURN])
        yield Request([NOP, b(1, 3, cond), NOP, RETURN], existing=[12])
        yield Request([b(0, 3, EQ), b(1, 4, cond), NOP, RETURN, RETURN], existing=[16])
        yield Request([NOP, b(1, 3, cond), NOP, RETURN], existing=[8, 16])
        yield Request([NOP, b(1, 0, cond), RETURN], existing=[0])
        yield Request([NOP, NOP, b(2, 0, cond), RETURN], start=4, existing=[0])
        yield Request([NOP, b(1, 3, cond), NOP, RETURN], module=(0, 12), existing=[12])
        yield Request([NOP, b(1, 3, cond), NOP, RETURN, NOP], module=(8, 20))
        yield Request([b(0, 2, cond, 1), 0xFA000000, 0xFB7FFFFF, b(3, -0x4000, cond, 1), RETURN])
    yield Request([branch(0x7FFFFF, AL, 1), branch(-0x800000, AL, 1), 0xFA800000, RETURN], base=LOW)
    for base in (LOW, 0x02FFFFF0):
        for to in ((LOW - base) // 4, (LOW - base) // 4 - 1, (HIGH - base) // 4 - 1, (HIGH - base) // 4):
            for cond in (AL, EQ):
                yield Request([b(0, to, cond), RETURN], base=base)
    for pattern in (
            [data(EOR, 1, 1, imm(1), s=1), b(1, 4, MI)], [data(EOR, 1, 1, imm(1), s=1), NOP, b(2, 4, MI)],
            [data(EOR, 1, 1, imm(1), s=1), compare(CMP, 1, imm(0)), b(2, 4, MI)], [mov(PC, shifted(LR), GE), b(1, 4)], [mov(12, shifted(SP)), b(1, 4)],
            [mov(12, shifted(SP)), b(1, 4, EQ)], [b(0, 4, EQ), mov(12, shifted(SP)), b(2, 5)], [transfer(1, 12, PC, 8), data(ADD, 0, 0, shifted(12)), b(2, 4)],
            [transfer(1, 12, PC, 8), data(ADD, 0, 0, shifted(12)), NOP, b(3, 5)], [mov(12, shifted(SP)), b(1, 0x40)]):
        yield Request(pattern + [NOP] * 3 + [RETURN, RETURN])

    # Pool loads: which ones count, where the word is, and what is not wholly in the code.
    for load in (
            transfer(1, 0, PC, 4), transfer(1, 0, PC, 4, cond=NE), transfer(1, 0, PC, 4, w=1), transfer(1, 0, PC, 4, p=0), transfer(1, 0, PC, 4, p=0, w=1),
            transfer(1, 0, PC, 4, byte=1), transfer(1, PC, PC, 4, cond=NE), transfer(1, 0, PC, by_shift(1)), transfer(1, 0, 1, 4), transfer(0, 0, PC, 4),
            transfer(1, 0, PC, 5), transfer(1, 0, PC, 7), transfer(1, 0, PC, 8), transfer(1, 0, PC, 9), transfer(1, 0, PC, 12), transfer(1, 0, PC, 0xFFF),
            transfer(1, 0, PC, 0, u=0), transfer(1, 0, PC, 4, u=0), transfer(1, 0, PC, 5, u=0), transfer(1, 0, PC, 8, u=0), transfer(1, 0, PC, 9, u=0),
            transfer(1, 0, PC, 0xFFF, u=0), 0xE1DF00B4):
        yield Request([load, NOP, RETURN, 0x11111111, 0x22222222])
        yield Request([NOP, load, RETURN, 0x11111111], tail=b'abc')
    yield Request([0x11111111, pool(1, 0), RETURN], start=4)
    yield Request([0x11111111, 0x22222222, pool(2, 1), pool(3, 0), RETURN], start=8)
    yield Request([0x11111111, pool(1, 0), RETURN], start=4, known=8)
    yield Request([0x11111111, pool(1, 0), NOP], start=4)
    yield Request([transfer(1, 0, PC, 12, u=0), RETURN], start=0, base=LOW)
    yield Request([pool(0, 4, 1), pool(1, 5, 2), pool(2, 4, 3), RETURN, 0x11111111, 0x22222222])

    # Marks: what a register holds when it is branched to.
    for words in (
            [pool(0, 4, 12), NOP, NOP, bx(12), 5], [pool(0, 4, 12), mov(12, imm(0)), NOP, bx(12), 5], [pool(0, 4, 12), pool(1, 4, 12), NOP, bx(12), 5],
            [pool(0, 4, 12), bx(12, NE), NOP, bx(LR), 5], [b(0, 3, EQ), pool(1, 5, 12), bx(12), pool(3, 5, 1), bx(LR), 5],
            [b(0, 3, EQ), pool(1, 5, 12), bx(12), pool(3, 5, 1), bx(1), 5], [pool(0, 4, 12), mov(3, shifted(12)), NOP, bx(3), 5],
            [pool(0, 4, 4), pop(0x10), NOP, bx(4), 5], [pool(0, 4, 4), transfer(1, 1, 4, 4, p=0), NOP, bx(4), 5],
            [pool(0, 4, LR), b(1, 0x40, AL, 1), NOP, bx(LR), 5], [pool(0, 4, 4), push(0x10), compare(CMP, 4, imm(1)), bx(4), 5],
            [pool(0, 4, 3), pool(1, 5, 12), NOP, bx(3), 5, 6], [pool(0, 4, 12), 0xE12FFF3C, NOP, bx(12), 5]):
        yield Request(words)

    # Pools in the code: passed as words, jumped over, and with no label past them.
    skipped = [pool(0, 3, 1), pool(1, 4, 2), b(2, 5), 0x11111111, 0x22222222, NOP, RETURN]
    yield Request(skipped)
    yield Request(skipped[:2] + [b(2, 6)] + skipped[3:])
    yield Request([b(0, 6, EQ), pool(1, 4, 1), pool(2, 5, 2), b(3, 8), 0x11111111, 0x22222222, NOP, NOP, RETURN])
    yield Request([b(0, 5, EQ), pool(1, 4, 1), pool(2, 5, 2), b(3, 8), 0x11111111, 0x22222222, NOP, NOP, RETURN])
    yield Request([b(0, 7, EQ), pool(1, 4, 1), NOP, b(3, 2), 0x11111111, 0x22222222, NOP, RETURN])
    yield Request([pool(0, 3, 1), pool(1, 4, 2), b(2, 1, EQ), 0x11111111, 0x22222222, NOP, RETURN])
    yield Request([pool(0, 3, 1), pool(1, 5, 2), b(2, 1, EQ), 0x11111111, NOP, 0x22222222, NOP, RETURN])
    yield Request([pool(0, 2, 1), b(1, 0, EQ), 0x11111111], module=(0, 12))
    yield Request([pool(0, 2, 1), b(1, 0x1100, EQ), 0x11111111, RETURN], module=(0, 0x8000))
    yield Request([pool(0, 2, 1), b(1, 6), 0x11111111, entry, RETURN, RETURN, RETURN])

    # The next word is the destination of a long branch.
    for follow in (NOP, entry, conditional_entry, push(0x10), 0xE7F000F0):
        for last in (5, 6):
            yield Request([b(0, 3, AL, 1), pool(1, last, 1), RETURN, follow, RETURN, 0x11111111, RETURN][:last + 1])
            yield Request([b(0, 3, AL, 1), pool(1, last, 1), b(2, 0), follow, RETURN, 0x11111111, RETURN][:last + 1])
    yield Request([b(0, 4, AL, 1), pool(1, 6, 1), RETURN, NOP, RETURN, NOP, 0x11111111])
    yield Request([b(0, 3, AL, 1), pool(1, 3, 1), RETURN, NOP, RETURN])
    yield Request([0xFA000001, pool(1, 5, 1), RETURN, NOP, RETURN, 0x11111111])

    # Jump tables: each of the three ways, cut short, and left by a return.
    plain = [compare(CMP, 0, imm(2)), jump(0, LS), b(2, 7), b(3, 6), b(4, 7), b(5, 8), NOP, RETURN, RETURN, RETURN]
    yield Request(plain)
    yield Request([plain[0], STEP] + plain[1:])
    yield Request([plain[0], data(ADD, 1, 1, imm(1), s=1)] + plain[1:])
    yield Request([plain[0], jump(1, LS)] + plain[2:])
    yield Request([compare(CMP, 0, imm(1)), b(1, 7, GT), compare(CMP, 0, imm(0)), jump(0, GE), b(4, 7), b(5, 6), b(6, 7), RETURN, RETURN])
    yield Request([compare(CMP, 0, imm(1)), b(1, 7, GT), STEP, compare(CMP, 0, imm(0)), jump(0, GE), b(5, 7), b(6, 7), RETURN, RETURN])
    yield Request([push(0x4000), compare(CMP, 0, imm(1)), pop(0x8000, HI), STEP, jump(0, AL), b(5, 7), b(6, 7), RETURN, RETURN, RETURN])
    yield Request([compare(CMP, 0, imm(0)), jump(0, LS), b(2, 4), b(3, 5), RETURN, RETURN, RETURN])
    yield Request([compare(CMP, 0, imm(1)), jump(0, LS), RETURN, b(3, 6), b(4, 6), RETURN, RETURN, RETURN])
    yield Request([compare(CMP, 0, imm(3)), jump(0, LS), NOP, compare(CMP, 1, imm(1)), jump(1, LS), b(5, 8), b(6, 8), RETURN, RETURN, RETURN])
    yield Request([compare(CMP, 0, imm(2)), jump(0, LS), b(2, 5), b(3, 0x40), b(4, -0x40), b(5, 2), RETURN, RETURN])
    # A branch at a table's end, when all of the table's own go there.
    yield Request([compare(CMP, 0, imm(1)), jump(0, LS), b(2, 5), b(3, 5), b(4, 5), b(5, 7), RETURN, NOP, RETURN])
    yield Request([compare(CMP, 0, imm(1)), jump(0, LS), b(2, 4), b(3, 4), b(4, 7), RETURN, NOP, RETURN])
    for limit in (imm(1, 1), imm(0xFF, 4), imm(0x3F, 4), imm(0xFD, 4)):
        yield Request([compare(CMP, 0, limit), jump(0, LS), RETURN])

    # Inline tables: before, around and past the walk, at odd places, and what their machine does not look at.
    filler = [NOP] * 80
    yield Request([sub_pc(3, 0, 12), table_load(3), b(2, 67)] + filler)
    yield Request([sub_pc(3, 0, 12), table_load(3), NOP] + [0xE7F000F0] * 64 + [RETURN])
    for table in (9, 10, 11, 16, 0x40, 0x101, 0x104):
        yield Request([sub_pc(3, 0, table), table_load(3), NOP, NOP, b(4, 0, EQ)] + filler + [RETURN], tail=b'\x1e\xff\x2f\xe1' * 3)
    # Past a table that ends at an odd byte: pool words stay at multiples of 4, labels and tables do not.
    for table in (9, 10, 11):
        for words in (
                [transfer(1, 0, PC, 0), NOP, RETURN, NOP, NOP], [transfer(1, 0, PC, 5), NOP, RETURN, NOP, NOP],
                [transfer(1, 0, PC, 2), b(1, 0, EQ), RETURN, NOP], [transfer(1, 0, PC, 3, u=0), b(1, 3), NOP, RETURN, NOP],
                [b(0, 2, EQ), RETURN, RETURN], [b(0, 2), NOP, b(2, 0, EQ), RETURN], [compare(CMP, 0, imm(1)), jump(0, LS), b(2, 5), b(3, 5), b(4, 5), RETURN],
                [b(0, 0)], [b(0, 0x20), RETURN], [sub_pc(3, 0, 8), table_load(3), RETURN]):
            gap = bytes(table + 0x100 - 12)
            yield Request([sub_pc(3, 0, table), table_load(3), NOP], tail=gap + b''.join(struct.pack('<I', word) for word in words) + b'ab')
    yield Request([sub_pc(3, 0, 12), NOP, table_load(3), RETURN])
    yield Request([sub_pc(3, 0, 12), sub_pc(3, 4, 16), table_load(3), RETURN])
    yield Request([sub_pc(3, 0, 0x40), table_load(3), sub_pc(4, 8, 0x48), table_load(4), RETURN])
    yield Request([sub_pc(3, 0, 0x40), table_load(3), NOP, sub_pc(4, 12, 0x80), table_load(4), b(5, 0, EQ)] + filler + filler + [RETURN])
    # Two tables hold a word: the lower one's end comes first, and the word there becomes the previous one.
    both = [sub_pc(3, 0, 0x14), table_load(3), NOP, sub_pc(4, 12, 0x10), table_load(4)] + [NOP] * 63
    yield Request(both + [b(68, 70, EQ), entry, RETURN])
    yield Request(both + [NOP, entry, RETURN])
    yield Request([sub_pc(3, 0, 0x40), table_load(4), RETURN])
    yield Request([pool(0, 4, 1), sub_pc(3, 4, 16), table_load(3), b(3, 0, EQ), 0x11111111] + filler + [RETURN])
    yield Request([data(SUB, 3, PC, imm(0xFF, 4)), RETURN])
    yield Request([data(SUB, 3, PC, imm(2, 4)), table_load(3), RETURN], base=LOW)
    yield Request([NOP, data(SUB, 3, PC, imm(0x80, 5)), table_load(3), RETURN], base=LOW)
    yield Request([sub_pc(3, 0, 0), data(SUB, 3, PC, imm(0xFF, 4)), table_load(3), RETURN])

    # The check: what is defined, when, and by what.
    for words in (
            [mov(4, shifted(4)), RETURN], [mov(4, shifted(4), s=1), RETURN], [mov(4, shifted(4), NE), RETURN], [mov(4, shifted(4, ROR, 0)), RETURN], [mov(0, shifted(4, LSL, 2)), RETURN],
            [mov(4, imm(1)), STEP, mov(0, shifted(4)), RETURN], [push(0x10), mov(0, shifted(4)), RETURN], [push(0x10, NE), mov(0, shifted(5)), RETURN],
            [block(0, SP, 0x60, 0), mov(0, shifted(5)), RETURN], [block(0, 1, 0x60, 0), RETURN], [transfer(0, 4, SP, 4), mov(0, shifted(4)), RETURN],
            [transfer(0, 4, SP, 4, w=1), RETURN], [transfer(0, 4, SP, 4, p=0), RETURN], [transfer(0, 4, SP, by_shift(5)), RETURN],
            [transfer(0, 4, SP, 4, byte=1), RETURN], [data(ADD, 0, 6, shifted(5)), RETURN], [data(ADD, 0, 5, by_register(7, LSL, 6)), RETURN],
            [mov(0, shifted(10)), mov(0, shifted(11)), mov(0, shifted(12)), mov(0, shifted(9)), RETURN], [0xE0040695, RETURN], [0xE0875694, RETURN],
            [bx(4)], [b(0, 2, EQ), bx(4), NOP, RETURN], [b(0, 2, EQ), pop(0x8010), mov(0, shifted(4)), RETURN], [pop(0x10), mov(0, shifted(4)), RETURN],
            [block(1, 4, 0x8001)], [transfer(1, 1, 5, 4), RETURN], [transfer(1, 4, 0, 4), mov(0, shifted(4)), RETURN], [0xE1C040D0, mov(0, shifted(5)), RETURN],
            [compare(CMP, 4, imm(9)), RETURN], [sub_pc(4, 0, 0x40), table_load(4, rm=5), RETURN], [pool(0, 3, 4), mov(0, shifted(4)), RETURN, 7],
            [b(0, 2, AL, 1), 0xE12FFF34, RETURN], [0xE1040095, RETURN], [0xEE004F10, RETURN], [0xE129F004, RETURN], [0xE16F0F14, RETURN], [0xEF000000, RETURN]):
        yield Request(words, check=1)
    yield Request([b(0, 2, EQ), mov(0, shifted(4)), RETURN], check=1)
    yield from of_one_register()


def of_one_register():
    """Document 02's pushes and pops of one register, and words close to them, for each place that asks for a push or a pop. Bits 15 to 0 of
    push_one(4) hold LR, and those of pop_one(8) hold PC: their lists do not."""
    entry, back = push_one(LR), pop_one(PC)

    # Whole functions, with the next one behind them: entered and left by one register, and one way in and the other out.
    for first in (entry, push(0x4000), push(0x4010)):
        for last in (back, pop(0x8000), pop(0x8010)):
            yield Request([first, STEP, last, entry, STEP, back])
    yield Request([entry, b(1, 0x40, AL, 1), pop_one(LR), RETURN, entry, back])
    yield Request([push_one(4), entry, pool(2, 5), pop_one(4), back, 0x11111111, entry, back], check=1)
    yield Request([entry, compare(CMP, 0, imm(0)), pop_one(PC, EQ), STEP, back, entry, back])
    yield Request([entry, compare(CMP, 0, imm(0)), b(2, 5, EQ), STEP, back, STEP, back, entry, back])
    yield Request([b(0, 2, EQ), entry, STEP, back], start=4)

    # Returns and what looks like them.
    for word in [pop_one(PC, EQ), pop_one(PC, LE), pop_one(8), pop_one(LR), pop_one(SP), push_one(PC)] + near_misses(back):
        yield Request([NOP, word, STEP, RETURN])
    yield Request([b(0, 2, EQ), back, back, RETURN])
    yield Request([b(0, 3, EQ), back, NOP, back, RETURN])

    # An entry after a branch; a word that is passed over counts as the branch.
    for first in (b(0, 2, EQ), b(0, 2), b(0, 3, EQ), b(0, 0x40), b(0, 0x40, EQ), b(0, 2, AL, 1)):
        for second in (entry, push_one(LR, NE), push_one(4)):
            yield Request([first, second, STEP, RETURN, RETURN])
    for second in [push_one(SP), push_one(PC), pop_one(LR)] + near_misses(entry):
        yield Request([b(0, 2, EQ), second, STEP, RETURN, RETURN])
    yield Request([b(0, 3, EQ), b(1, 0x40), entry, RETURN])
    yield Request([b(0, 3, EQ), NOP, entry, RETURN])
    for cond in (EQ, AL):
        yield Request([pool(0, 2), NOP, b(2, 5, cond), entry, RETURN, RETURN])
    yield Request([pool(0, 2, 1), b(1, 6), 0x11111111, entry, RETURN, RETURN, RETURN])

    # The next word is the destination of a long branch, and an entry or not.
    for follow in [entry, push_one(LR, NE), push_one(4)] + near_misses(entry):
        yield Request([b(0, 3, AL, 1), pool(1, 5, 1), RETURN, follow, RETURN, 0x11111111])
    for follow in (NOP, entry, push(0x4000), push_one(4), back):
        yield Request([b(0, 3, AL, 1), pool(1, 5, 1), back, follow, RETURN, 0x11111111])

    # A pop under HI before a jump table.
    for word in [pop_one(PC, HI), pop_one(4, HI), pop_one(8, HI), pop_one(PC, LS), pop_one(PC), push_one(LR, HI)] + near_misses(pop_one(PC, HI)):
        yield Request([entry, compare(CMP, 0, imm(1)), word, STEP, jump(0, AL), b(5, 8), b(6, 8), b(7, 9), STEP, back, RETURN])

    # What a register holds: a pop forgets its one register, a push none.
    for words in (
            [pool(0, 4, 4), pop_one(4), NOP, bx(4), 5], [pool(0, 4, 2), pop_one(8), NOP, bx(2), 5], [pool(0, 4, 4), push_one(4), NOP, bx(4), 5],
            [pool(0, 4, 2), push_one(4), NOP, bx(2), 5], [pool(0, 4, LR), entry, pop_one(LR), bx(LR), 5]):
        yield Request(words)

    # The check: a push defines its one register and no other, under a condition too; so does a pop, but for a return.
    for words in (
            [push_one(4), mov(0, shifted(4)), RETURN], [push_one(4, NE), mov(0, shifted(4)), RETURN], [push_one(4), mov(0, shifted(5)), RETURN],
            [push_one(8), STEP, mov(0, shifted(8)), RETURN], [push_one(4), push_one(5), entry, data(ADD, 0, 4, shifted(5)), back],
            [push_one(SP), push_one(PC), RETURN], [pop_one(4), mov(0, shifted(4)), RETURN], [pop_one(8, EQ), mov(0, shifted(8)), RETURN],
            [pop_one(8), mov(0, shifted(4)), RETURN], [b(0, 2, EQ), back, mov(0, shifted(4)), RETURN]):
        yield Request(words, check=1)
    for word in near_misses(push_one(4)) + near_misses(pop_one(4)) + [0xE72D0004, 0xE69D0004]:
        yield Request([word, mov(0, shifted(4)), RETURN], check=1)

    # Condition 1111 has neither.
    for word in (push_one(LR, NV), pop_one(PC, NV)):
        yield Request([NOP, word, RETURN])


# ---- requests at random

REGS = [0, 1, 2, 3, 0, 1, 2, 3, 4, 5, 12, SP, LR, PC]


def piece(at, total):
    """Some words that may stand at word `at` of `total`."""
    reg = lambda: random.choice(REGS)
    cond = random.choice([AL] * 6 + [EQ, NE, GE, GT, LS, HI, LT, MI, LE])
    near = random.choice([random.randrange(total + 1), at + random.randrange(1, 8), at - random.randrange(8)])
    kind = random.randrange(30)
    if kind < 5:
        return [data(random.choice([ADD, SUB, EOR]), random.choice([0, 1, 2, 3, 4]), reg(), random.choice([imm(random.randrange(6)), shifted(reg())]), cond)]
    if kind < 8:
        return [b(at, near, random.choice([EQ, NE, GE, GT, LS, MI]))]
    if kind < 10:
        return [b(at, near)]
    if kind < 13:
        return [pool(at, min(at + random.randrange(2, 12), total), random.choice([0, 1, 2, 12]), cond)]
    if kind == 13:
        return [pool(at, max(at - random.randrange(9), -1), random.choice([0, 1, 12]))]
    if kind == 14:
        return [random.choice([bx(LR), bx(12), bx(reg()), pop(0x8010), pop(0x8010, HI), mov(PC, shifted(LR)), bx(LR, EQ), pop_one(PC, cond), pop_one(reg())])]
    if kind == 15:
        return [random.choice([push(0x4010), push(0x4010, NE), push(0x30), block(0, SP, 0x60, random.randrange(4)), push_one(LR, cond), push_one(reg())])]
    if kind == 16:
        return [b(at, near, random.choice([AL, EQ]), 1)]
    if kind == 17:
        limit = random.randrange(5)
        here = [compare(CMP, 1, imm(limit))] + [STEP] * random.randrange(2)
        here += random.choice([[jump(1, LS)], [b(at, near, GT), compare(CMP, 1, imm(0)), jump(1, GE)], [pop(0x8010, HI), jump(1, AL)], [pop_one(PC, HI), jump(1, AL)]])
        here.append(b(at + len(here), near))
        return here + [b(at + len(here) + i, min(at + len(here) + random.randrange(1, 12), total)) for i in range(limit + 1)]
    if kind == 18:
        distance = random.choice([0x100, 0xF4, 0xE0, 0x104 - 4 * random.randrange(9), 0xFF, 0xF6])
        return [data(SUB, 3, PC, imm(distance if distance < 256 else distance >> 2, 0 if distance < 256 else 15)), table_load(3), b(at + 2, near, cond)]
    if kind == 19:
        return [random.choice([data(EOR, 1, 1, imm(1), s=1), mov(PC, shifted(LR), GE), mov(12, shifted(SP)), data(ADD, 0, 0, imm(4), s=1)]),
                b(at + 1, near, random.choice([MI, AL, NE]))]
    if kind == 20:
        return [transfer(random.randrange(2), reg(), random.choice([SP, 0, 1, 4]), random.choice([4, 8, by_shift(reg())]), random.randrange(2),
                         random.randrange(2), random.randrange(2), random.randrange(2), cond)]
    if kind == 21:
        return [mov(reg(), shifted(reg(), random.randrange(4), random.choice([0, 0, 1, 2])), cond)]
    if kind == 22:
        return [block(random.randrange(2), reg(), random.getrandbits(16) & random.getrandbits(16), random.randrange(4), 0, random.randrange(2), cond)]
    if kind == 23:
        return [compare(random.choice([CMP, 8, 9, 11]), reg(), random.choice([imm(0), imm(3), shifted(1)]), cond)]
    if kind == 24 and random.random() < 0.3:
        return [random.getrandbits(32)]
    if kind == 25 and random.random() < 0.3:
        return [random.choice([branch(0x3F0000, cond), branch(-0x3000, cond), 0xE7F000F0, 0xFA000000 + random.getrandbits(4)])]
    return [STEP if random.random() < 0.5 else NOP]


def at_random():
    total = random.choice([3, 6, 10, 16, 24, 40, 90])
    words = []
    while len(words) < total:
        words += piece(len(words), total)
    words = words[:total]
    if random.random() < 0.6:
        words[-1 - random.randrange(min(3, total))] = random.choice([RETURN, RETURN, pop(0x8010), bx(12), pop_one(PC)])
    size = 4 * total
    base = random.choice([BASE, BASE, BASE, LOW, HIGH - size - 4, BASE + 0x1000])
    tail = random.randbytes(random.choice([0, 0, 0, 1, 3]))
    module = random.choice([None, None, None, (0, size + 4), (0, size - 4 * random.randrange(3)), (4 * random.randrange(3), size), (-4 * (base > LOW), size + 4)])
    start = 4 * random.choice([0, 0, 0, 0, random.randrange(min(6, total)), random.randrange(total)])
    known = random.choice([None] * 6 + [start, 4 * random.randrange(total + 1)])
    existing = [4 * random.randrange(total + 2) for _ in range(random.choice([0, 0, 0, 2, 5]))]
    return Request(words, base, module, start, known, random.choice([0, 0, 1]), existing, tail)


# ---- requests changed

PLANNED = list(planned())
CONDITIONS = (AL, AL, EQ, NE, GE, NV)


def changed_word(word):
    kind = random.random()
    if kind < .4:
        return word ^ 1 << random.randrange(32)
    if kind < .6:
        return word & 0x0FFFFFFF | random.choice(CONDITIONS) << 28
    if kind < .8:
        return random.choice(random.choice(PLANNED).words() or [NOP])
    return random.getrandbits(32)


def changed(plan):
    """Up to three words changed, or a refusal's example put in; and now and then another module end, known end or check."""
    request = Request([], base=plan.base)
    request.numbers, request.existing, request.check = list(plan.numbers), list(plan.existing), random.choice((plan.check, 0, 1))
    words, tail = plan.words(), plan.code[len(plan.code) // 4 * 4:]
    places = [random.randrange(len(words)) for _ in range(random.choice((1, 1, 2, 3)))] if words else []
    if places and random.random() < .3:
        example = random.choice(REFUSED)
        words[places[0]:places[0] + len(example)] = example
    else:
        for at in places:
            words[at] = changed_word(words[at])
    request.code = struct.pack(f'<{len(words)}I', *words) + tail
    if random.random() < .2:
        request.numbers[2] = min(HIGH, max(request.numbers[1], request.numbers[2] + 4 * random.randrange(-3, 4)))
    if random.random() < .1:
        request.numbers[4] = random.choice((0, request.base + 4 * random.randrange(8)))
    return request


# ---- the original's answers

def comparable(request, answer):
    """Not an inline table at 0 to 7, where the original panics on the way to a sum that the port accepts."""
    found = re.match(r'refused 12 (\w{8})', answer.splitlines()[-1])
    if not found:
        return True
    address = int(found[1], 16)
    word = request.word(address)
    if word & 0x0FFF0000 & ~0xF000 != 0x024F0000:
        return True
    amount, byte = 2 * (word >> 8 & 15), word & 255
    return not 0 <= address + 0x108 - ((byte >> amount | byte << 32 - amount) & TOP) < 8


def answers(program, requests, *options):
    run = subprocess.run([program, *options], input=b''.join(request.pack() for request in requests), capture_output=True, check=True)
    texts = run.stdout.decode().split('\n\n')
    assert len(texts) == len(requests)
    # A panic is a refusal in the port. One without a number would be news.
    assert not re.search(r'^(panic \?|outside)', run.stdout.decode(), re.M)
    return [re.sub(r'^panic (\d+ \w{8}) .*', r'refused \1', text.rstrip('\n'), flags=re.M) + '\n' for text in texts]


def compared(requests, program):
    """The original's answers step by step, without those that are not compared."""
    texts = answers(program, requests, 'steps')
    return [(request, text) for request, text in zip(requests, texts, strict=True) if comparable(request, text)]


def made(program):
    """The examples, each with its text."""
    from examples import examples
    found = list(examples())
    asked = [example for example in found if example.made != 'hand']
    rust = dict(zip(map(id, asked), answers(program, [example.plain for example in asked], 'steps'), strict=True))
    return [(example.pack(), example.expected(rust.get(id(example)))) for example in found]


def outcome(text):
    """The number of a refusal or `accepted`, and whether the lists are rich: two kinds of entries, and four entries in all."""
    lines = text.splitlines()
    at = max(i for i, line in enumerate(lines) if line.startswith(('function', 'refused')))
    kinds = [line.split()[0] for line in lines[at + 1:]]
    words = lines[at].split()
    is_accepted = words[0] == 'function'
    return 'accepted' if is_accepted else int(words[1]), is_accepted and len(set(kinds)) >= 2 and len(kinds) >= 4


def by_one(request, text):
    """Accepted, with a push of LR alone as the first instruction and a pop of PC alone as the last."""
    found = re.search(r'^function \w+ \w+ (\w+) (\w+) \d\d$', text, re.M)
    return bool(found) and request.word(int(found[1], 16)) == push_one(LR) and request.word(int(found[2], 16) - 4) == pop_one(PC)


def counted(groups):
    pairs = [pair for group in groups.values() for pair in group]
    ends = collections.Counter(outcome(text)[0] for _, text in pairs)
    rich = sum(outcome(text)[1] for _, text in pairs)
    one = {name: sum(by_one(*pair) for pair in group) for name, group in groups.items()}
    print(f"walks: {len(pairs)} requests with the original's answers, {rich} accepted with rich lists")
    print(', '.join(f'{len(group)} {name} ({one[name]} entered and left by one register)' for name, group in groups.items()))
    print('ends:', ', '.join(f'{end} {ends[end]}' for end in sorted(ends, key=str)))
    assert len(pairs) >= 2000 and 4 * rich >= len(pairs) and 5 * one['rich'] >= RICH
    assert set(ends) == {'accepted', 5, 6, 7, 8, 9, 10, 11, 12, 14} and min(ends.values()) >= 10
    return pairs


def main():
    from rich import rich
    program = sys.argv[1]
    random.seed(SEED)
    requests = {'planned': PLANNED, 'at random': [at_random() for _ in range(AT_RANDOM)], 'rich': [rich(i % 4 == 0) for i in range(RICH)]}
    requests['changed'] = [changed(rich() if random.random() < .6 else random.choice(PLANNED)) for _ in range(CHANGED)]
    pairs = counted({name: compared(group, program) for name, group in requests.items()})
    pairs = [(request.pack(), text) for request, text in pairs] + made(program)
    folder = pathlib.Path(__file__).resolve().parents[2] / 'crates/walks'
    (folder / 'stdin').write_bytes(b''.join(request for request, _ in pairs))
    (folder / 'stdout').write_text('\n'.join(text for _, text in pairs))


if __name__ == '__main__':
    main()
