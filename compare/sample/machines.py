#!/usr/bin/env python3
"""Makes stdin and stdout of crates/machines: records for the four small machines, and the original's answers to them.

Usage: machines.py MACHINES [FOLDER COUNT SEED]

MACHINES is the path of the built `machines`. The stored sample is made without the rest, in crates/machines; the same seed gives the same
files. With the rest: COUNT records from another SEED into another FOLDER, for a longer comparison.
"""
import itertools
import pathlib
import random
import struct
import subprocess
import sys

SEED = 20261115
COUNT = 3600
TOP = 0xFFFFFFFF
OVERFLOW = TOP

EQ, NE, MI, HI, LS, GE, LT, GT, LE, AL, NV = 0, 1, 4, 8, 9, 10, 11, 12, 13, 14, 15
SP, LR, PC = 13, 14, 15
LSL, LSR, ASR, ROR = 0, 1, 2, 3
EOR, SUB, ADD, TST, TEQ, CMP, CMN, MOV, MVN = 1, 2, 4, 8, 9, 10, 11, 13, 15


# ---- words

def imm(byte, rotation=0):
    return 1 << 25 | rotation << 8 | byte


def shifted(rm, kind=LSL, amount=0):
    return amount << 7 | kind << 5 | rm


def by_register(rm, kind, rs):
    return rs << 8 | kind << 5 | 1 << 4 | rm


def data(opcode, rd, rn, op2, cond=AL, s=0):
    return cond << 28 | opcode << 21 | s << 20 | rn << 16 | rd << 12 | op2


def mov(rd, op2, cond=AL, s=0):
    return data(MOV, rd, 0, op2, cond, s)


def compare(opcode, rn, op2, cond=AL):
    return data(opcode, 0, rn, op2, cond, 1)


# p: offset before the access; u: added; w: written back (with p clear, the T form)
def transfer(load, rd, rn, offset, byte=0, p=1, u=1, w=0, cond=AL):
    return cond << 28 | 1 << 26 | p << 24 | u << 23 | byte << 22 | w << 21 | load << 20 | rn << 16 | rd << 12 | offset


def by_shift(rm, kind=LSL, amount=0):
    return 1 << 25 | shifted(rm, kind, amount)


# pu: 0 DA, 1 IA, 2 DB, 3 IB
def block(load, rn, regs, pu=1, s=0, w=0, cond=AL):
    return cond << 28 | 1 << 27 | pu << 23 | s << 22 | w << 21 | load << 20 | rn << 16 | regs


def push(regs, cond=AL):
    return block(0, SP, regs, 2, 0, 1, cond)


def pop(regs, cond=AL):
    return block(1, SP, regs, 1, 0, 1, cond)


# STR Rd, [SP, #-4]! and LDR Rd, [SP], #4
def push_one(rd, cond=AL):
    return transfer(0, rd, SP, 4, u=0, w=1, cond=cond)


def pop_one(rd, cond=AL):
    return transfer(1, rd, SP, 4, p=0, cond=cond)


def near_misses(word):
    """Words close to a push or a pop of one register: with another offset (8, 0, 5, 0x104) or a register's (r4), another base, and one of L, W, B,
    U and P, or P and W, the other way round."""
    load, w, byte, u, p, by_r4 = (1 << place for place in range(20, 26))
    return [word ^ bits for bits in (4 ^ 8, 4, 1, 0x100, by_r4, 1 << 16, 2 << 16, 4 << 16, 8 << 16, load, w, byte, u, p, p | w)]


def branch(offset=0, cond=AL, link=0):
    return cond << 28 | 5 << 25 | link << 24 | offset & 0xFFFFFF


def bx(rm, cond=AL):
    return cond << 28 | 0x12FFF10 | rm


# Words that set the condition flags in one way or another, and words close to them that do not.
FLAGS = [
    compare(TST, 1, shifted(2)), compare(TEQ, 1, imm(1)), compare(CMP, 1, shifted(2)), compare(CMN, 1, imm(3)),
    compare(CMP, 1, imm(1), NE), compare(CMP, 1, by_register(2, LSR, 3)),
    data(ADD, 1, 1, imm(1), s=1), data(SUB, 1, 1, shifted(2, ASR, 3), s=1), mov(1, shifted(2), s=1), mov(1, shifted(2, LSL, 3), s=1),
    data(ADD, 1, 1, imm(1), NE, 1), 0xE0110392, 0xE0354192, 0xE0B54192,  # MULS, MLAS, UMLALS
    0xE128F001, 0xE328F20F, 0xE12CF001,                                    # MSR with the flag byte
    0xEE11FF10, 0xFE11FF10, 0xE8FD8001, 0xE8D18001,                        # MRC to R15, LDM with S and PC
]
NO_FLAGS = [
    data(ADD, 1, 1, imm(1)), mov(1, shifted(2)), mov(1, imm(4)), data(MVN, 1, 0, imm(4)), 0xE0010392, 0xE1010052, 0xE1610374,
    0xE121F001, 0xE168F001, 0xE10F1000,                                    # MSR of other bytes, of the SPSR, MRS
    0xEE11EF10, 0xEE01FF10, 0xE8FD4001, 0xE8BD8001, 0xE8C18001,            # MRC elsewhere, MCR, LDM without S or PC, STM
    0xE5910004, 0xE7910002, 0xE1D100B2, 0xE1D100D0, 0xE1B1F09F, 0xEF000000, 0xE1200070, 0xF5D1F000, 0xED910100,
]
ILLEGAL = [0xE7F000F0, 0xF0000000, 0xE6000010, 0xE1C110D0, 0xE1C130F0, 0xEC000000, 0xFC400000, 0xE3000001, 0xF7D1F012, 0x17F000F0, TOP]
OTHERS = [branch(), branch(-2), branch(3, EQ), branch(1, AL, 1), 0xFA000001, 0xFB000001, 0xE12FFF31, bx(LR), bx(0, NE), 0xE1A00000, 0]

SHIFTS = [
    mov(rd, op2, cond, s)
    for op2 in (shifted(2, LSL, 1), shifted(3, LSR, 0), shifted(2, LSR, 31), shifted(2, ASR, 0), shifted(2, ASR, 4), shifted(2, ROR, 1),
                by_register(2, LSL, 3), by_register(2, LSR, 3), by_register(2, ASR, 0), by_register(2, ROR, 15))
    for rd, cond, s in ((1, AL, 0), (PC, NE, 1))
]
NO_SHIFTS = [
    mov(1, shifted(2)), mov(1, shifted(1)), mov(1, shifted(2, ROR, 0)), mov(1, imm(2, 3)), data(MVN, 1, 0, shifted(2, LSL, 1)),
    data(ADD, 1, 2, shifted(2, LSL, 1)), mov(1, shifted(2), NE, 1), compare(CMP, 1, shifted(2, LSL, 2)),
]


def illegal_code():
    stores = [block(0, rn, regs, pu, s, w, cond)
              for rn in (1, 4, SP) for regs, pu, s, w, cond in ((1, 1, 0, 0, AL), (0x8003, 2, 0, 1, AL), (2, 0, 1, 0, NE), (0x10, 3, 0, 1, EQ))]
    loads = [block(1, rn, regs, pu, s, w, cond)
             for rn in (1, 4, LR, PC)
             for regs, pu, s, w, cond in ((0x8000, 1, 0, 0, AL), (0x8001, 2, 1, 1, NE), (0x7FFF, 1, 0, 0, AL), (0xC000, 3, 0, 1, AL))]
    itself = [transfer(load, 2, rn, by_shift(rm, kind, amount), byte, p, u, w, cond)
              for rn, rm in ((1, 1), (PC, PC), (1, 2))
              for load, kind, amount, byte, p, u, w, cond in (
                  (0, LSL, 0, 0, 1, 1, 0, AL), (0, LSR, 0, 0, 1, 0, 1, AL), (0, ROR, 0, 0, 0, 1, 0, NE), (0, ASR, 5, 0, 0, 0, 0, AL),
                  (0, LSL, 0, 1, 1, 1, 0, AL), (0, LSL, 0, 0, 0, 1, 1, AL), (1, LSL, 0, 0, 1, 1, 0, AL))]
    close = [transfer(0, 2, 1, 1), transfer(0, 2, 4, 4, p=0), 0xE18110B1, 0xE18100F1, 0xE1010091, block(0, PC, 0x8000), push(0x4010), pop(0x8010)]
    # A push of one register has no register to offset by. The last two have, and are none: by SP itself, and by r4.
    close += [push_one(4), push_one(SP), pop_one(4), pop_one(PC), transfer(0, 4, SP, by_shift(SP), u=0, w=1), transfer(0, 4, SP, by_shift(4), u=0, w=1)]
    words = ILLEGAL + SHIFTS + NO_SHIFTS + stores + loads + itself + close + OTHERS
    states = [(0, 0, 0, 0), (1, 4, 0, 0), (1, 1, 0, 0), (1, SP, 0, 0)] + [(2, reason, 0, 0) for reason in (5, 6, 7, 8)]
    return 1, states, words, lambda state: [0x02000000]


def function_branch():
    eors = [data(EOR, 1, 2, op2, cond, s)
            for op2 in (imm(1), shifted(3), by_register(3, ROR, 4)) for cond, s in ((AL, 1), (AL, 0), (MI, 1), (LE, 0))]
    returns = [mov(rd, op2, cond, s)
               for rd, op2, cond, s in (
                   (PC, shifted(LR), GE, 0), (PC, shifted(LR), GE, 1), (PC, shifted(LR), GT, 0), (PC, shifted(LR), AL, 0),
                   (LR, shifted(LR), GE, 0), (PC, shifted(SP), GE, 0), (PC, shifted(LR, LSL, 1), GE, 0), (PC, shifted(LR, LSR, 0), GE, 0),
                   (PC, shifted(LR, ROR, 0), GE, 0), (PC, by_register(LR, LSL, 0), GE, 0), (PC, imm(LR), GE, 0))]
    from_sp = [mov(rd, op2, cond, s)
               for rd, op2, cond, s in (
                   (12, shifted(SP), AL, 0), (0, shifted(SP), AL, 0), (PC, shifted(SP), AL, 0), (12, shifted(SP), AL, 1),
                   (12, shifted(SP), NE, 0), (12, shifted(SP), GE, 0), (12, shifted(LR), AL, 0), (12, shifted(SP, LSL, 2), AL, 0),
                   (12, shifted(SP, ASR, 0), AL, 0), (12, shifted(SP, ROR, 0), AL, 0), (12, imm(SP), AL, 0))] + [data(MVN, 12, 0, shifted(SP))]
    pool = [transfer(load, rd, rn, offset, byte, p, u, w, cond)
            for load, rd, rn, offset, byte, p, u, w, cond in (
                (1, 12, PC, 8, 0, 1, 1, 0, AL), (1, 12, PC, 8, 0, 1, 0, 1, AL), (1, 12, PC, by_shift(3, LSR, 2), 0, 1, 1, 0, AL),
                (1, 12, PC, 8, 0, 1, 1, 0, LS), (1, 11, PC, 8, 0, 1, 1, 0, AL), (1, SP, PC, 8, 0, 1, 1, 0, AL), (1, 12, LR, 8, 0, 1, 1, 0, AL),
                (1, 12, PC, 8, 0, 0, 1, 0, AL), (1, 12, PC, 8, 0, 0, 1, 1, AL), (1, 12, PC, 8, 1, 1, 1, 0, AL), (0, 12, PC, 8, 0, 1, 1, 0, AL))]
    adds = [data(ADD, rd, rn, op2, cond, s)
            for rd, rn, op2, cond, s in (
                (0, 0, shifted(12), AL, 0), (0, 0, shifted(12), AL, 1), (0, 0, shifted(12), NE, 0), (1, 0, shifted(12), AL, 0),
                (0, 1, shifted(12), AL, 0), (0, 0, shifted(11), AL, 0), (0, 12, shifted(0), AL, 0), (0, 0, shifted(12, LSL, 1), AL, 0),
                (0, 0, shifted(12, LSR, 0), AL, 0), (0, 0, shifted(12, ROR, 0), AL, 0), (0, 0, by_register(12, LSL, 0), AL, 0),
                (0, 0, imm(12), AL, 0))] + [data(SUB, 0, 0, shifted(12))]
    branches = [branch(5, cond) for cond in range(15)] + [branch(-3, MI, 1), branch(-3, MI)]
    words = eors + returns + from_sp + pool + [push_one(12), pop_one(12)] + adds + branches + FLAGS + NO_FLAGS[:12] + OTHERS
    return 2, [(tag, 0, 0, 0) for tag in range(7)], words, lambda state: [0x02000000]


def inline_table():
    subs = [data(opcode, rd, rn, op2, cond, s)
            for opcode, rd, rn, op2, cond, s in (
                (SUB, 3, PC, imm(0x10), AL, 0), (SUB, 3, PC, imm(0), AL, 0), (SUB, PC, PC, imm(0x42, 15), AL, 0), (SUB, 0, PC, imm(0xFF, 14), AL, 0),
                (SUB, 3, PC, imm(2, 4), AL, 0), (SUB, 3, PC, imm(3, 4), AL, 0), (SUB, 3, PC, imm(0xFF, 4), AL, 0), (SUB, 3, PC, imm(1, 1), AL, 0),
                (SUB, 3, PC, imm(0x10), AL, 1), (SUB, 3, PC, imm(0x10), NE, 0), (SUB, 3, LR, imm(0x10), AL, 0), (SUB, 3, PC, shifted(1), AL, 0),
                (SUB, 3, PC, by_register(1, LSR, 2), AL, 0), (ADD, 3, PC, imm(0x10), AL, 0), (3, 3, PC, imm(0x10), AL, 0), (SUB, 3, 0, imm(15), AL, 0))]
    loads = [transfer(load, 1, rn, offset, byte, p, u, w, cond)
             for load, rn, offset, byte, p, u, w, cond in (
                 (1, 3, by_shift(2, LSR, 4), 1, 1, 1, 0, AL), (1, 3, by_shift(2, LSR, 0), 1, 1, 1, 0, AL), (1, 3, by_shift(3, LSR, 31), 1, 1, 0, 1, AL),
                 (1, 0, by_shift(2, LSR, 24), 1, 1, 1, 0, AL), (1, PC, by_shift(2, LSR, 24), 1, 1, 1, 0, AL),
                 (1, 3, by_shift(2, LSL, 4), 1, 1, 1, 0, AL), (1, 3, by_shift(2, ASR, 4), 1, 1, 1, 0, AL), (1, 3, by_shift(2, ROR, 0), 1, 1, 1, 0, AL),
                 (1, 3, by_shift(2, ROR, 4), 1, 1, 1, 0, AL), (1, 3, by_shift(2, LSR, 4), 1, 0, 1, 0, AL), (1, 3, by_shift(2, LSR, 4), 1, 0, 1, 1, AL),
                 (1, 3, by_shift(2, LSR, 4), 0, 1, 1, 0, AL), (0, 3, by_shift(2, LSR, 4), 1, 1, 1, 0, AL), (1, 3, by_shift(2, LSR, 4), 1, 1, 1, 0, LS),
                 (1, 3, 0x220, 1, 1, 1, 0, AL), (1, 4, by_shift(3, LSR, 4), 1, 1, 1, 0, AL))]
    words = subs + loads + [push_one(3), pop_one(3)] + NO_FLAGS[:4] + OTHERS[:4]

    # Around the sums' ends: below 0 for each of the immediates, and the highest table that ends in 32 bits.
    def addresses(state):
        return [0x02000000, 0x01FFFF00, 0x02000002, 0xFFFFFD00, 0xFFFFFDF7, 0, 0xFE] if state[0] == 0 else [0x02000004]

    states = [(0, 0, 0, 0), (1, 3, 0x02000140, 0x100), (1, 0, 0xFFFFFEFF, 0x100), (1, PC, 7, 0x100), (1, 3, 0, 0), (2, 0x02000100, 0x100, 0), (2, TOP, TOP, 0)]
    return 3, states, words, addresses


def jump_table():
    compares = [compare(opcode, rn, op2, cond)
                for opcode, rn, op2, cond in (
                    (CMP, 2, imm(0), AL), (CMP, 3, imm(0), AL), (CMP, 2, imm(1), AL), (CMP, 3, imm(9), AL), (CMP, PC, imm(1, 1), AL), (CMP, 2, imm(0xFF, 4), AL),
                    (CMP, 2, imm(0), NE), (CMP, 2, imm(3), LS), (CMP, 2, shifted(3), AL), (CMP, 2, by_register(3, LSL, 4), AL), (CMN, 2, imm(3), AL),
                    (TST, 2, imm(3), AL), (CMP, 2, imm(0, 7), AL))]
    jumps = [data(opcode, rd, rn, op2, cond, s)
             for cond in (LS, GE, AL)
             for opcode, rd, rn, op2, s in (
                 (ADD, PC, PC, shifted(2, LSL, 2), 0), (ADD, PC, PC, shifted(3, LSL, 2), 0), (ADD, PC, PC, shifted(2, LSL, 2), 1),
                 (ADD, LR, PC, shifted(2, LSL, 2), 0), (ADD, PC, LR, shifted(2, LSL, 2), 0), (ADD, PC, PC, shifted(2, LSL, 3), 0),
                 (ADD, PC, PC, shifted(2, LSR, 2), 0), (ADD, PC, PC, shifted(2, ASR, 2), 0), (ADD, PC, PC, shifted(2, ROR, 2), 0),
                 (ADD, PC, PC, by_register(2, LSL, 2), 0), (ADD, PC, PC, imm(2), 0), (SUB, PC, PC, shifted(2, LSL, 2), 0))]
    jumps += [data(ADD, PC, PC, shifted(2, LSL, 2), cond) for cond in (HI, GT, LT, EQ)]
    branches = [branch(4, cond) for cond in (GT, GE, HI, LS, LT, AL)] + [branch(4, GT, 1)]
    pops = [pop(0x8010, HI), pop(1, HI), pop(0x8010), pop(0x8010, LS), block(1, SP, 0x8010, 1, 0, 0, HI), block(1, SP, 0x8010, 2, 0, 1, HI),
            block(1, SP, 0x8010, 1, 1, 1, HI), block(1, 4, 0x8010, 1, 0, 1, HI), push(0x8010, HI)]
    pops += [pop_one(4, HI), pop_one(PC, HI), pop_one(8, HI), pop_one(PC), pop_one(PC, LS), push_one(LR, HI)] + near_misses(pop_one(PC, HI))
    words = compares + jumps + branches + pops + FLAGS[:4] + FLAGS[6:] + NO_FLAGS[4:16]
    states = [(0, 0, 0, 0)]
    states += [(tag, 2, limit, 0) for tag in (1, 2, 3, 4) for limit in (5, 0)] + [(5, 0x02000010, 3, 0), (5, 0x02000010, 0, 0)]

    # In a table: before it, at its first word, at its last, one byte and one word past that, and past its end.
    def addresses(state):
        if state[0] != 5:
            return [0x02000000]
        last = state[1] + 4 * state[2]
        return [random.choice([0x02000000, state[1], last, last + 1, last + 4, last + 8])]

    return 4, states, words, addresses


def at_the_limits():
    """Tables whose size or end is the highest that fits, or one step past it."""
    jumps = {1: data(ADD, PC, PC, shifted(2, LSL, 2), LS), 3: data(ADD, PC, PC, shifted(2, LSL, 2), GE), 4: data(ADD, PC, PC, shifted(2, LSL, 2), AL)}
    for tag, word in jumps.items():
        for address, limits in (
                (0x02000000, (0x3F7FFFFB, 0x3F7FFFFC, 0x3F7FFFFD, 0x3FFFFFFE, 0x3FFFFFFF, 0x40000000, 0x7FFFFFFF, TOP)),
                (0, (0x3FFFFFFB, 0x3FFFFFFC, 0x3FFFFFFD, 0x3FFFFFFE, 0x3FFFFFFF)), (0xFFFFFFEF, (0, 1)), (0xFFFFFFF0, (0, 1)), (0xFFFFFFF3, (0, 1)),
                (0xFFFFFFF4, (0,)), (0xFFFFFFF7, (0,)), (0xFFFFFFF8, (0,)), (TOP, (0, 5))):
            for limit in limits:
                yield 4, (tag, 2, limit, 0), address, word
    for table, limit in ((0, 0x3FFFFFFE), (3, 0x3FFFFFFE), (4, 0x3FFFFFFE), (0, 0x3FFFFFFF), (0xFFFFFFF0, 2), (0xFFFFFFFB, 0), (0xFFFFFFFC, 0), (1, TOP)):
        for address in (0, 0x02000000, table, table + 4 * limit & TOP, TOP):
            for word in (0xE1A00000, compare(CMP, 2, imm(9)), compare(CMP, 2, imm(0))):
                yield 4, (5, table, limit, 0), address, word


def crossed(machine, states, words, addresses):
    """Every word in the first state of each kind; in the kind's other states, a third of the words."""
    kinds = set()
    for state in states:
        for word in random.sample(words, len(words) // 3) if state[0] in kinds else words:
            for address in addresses(state):
                yield machine, state, address, word
        kinds.add(state[0])


def mutated(word):
    for _ in range(random.randrange(3)):
        kind = random.randrange(8)
        if kind == 0:
            word = word & ~(15 << 28) | random.choice([EQ, NE, MI, HI, LS, GE, GT, AL, AL, AL, NV]) << 28
        elif kind == 1:
            word ^= 1 << 20
        elif kind in (2, 3, 4):
            place = (0, 12, 16)[kind - 2]
            word = word & ~(15 << place) | random.choice([0, 1, 2, 3, 12, SP, LR, PC]) << place
        elif kind == 5:
            word = word & ~0xFE0 | random.choice([0, 1, 2, 31]) << 7 | random.randrange(4) << 5
        elif kind == 6:
            word = word & ~0xFFF | random.getrandbits(12)
        else:
            word ^= 1 << random.randrange(32)
    return word


def random_state(machine):
    reg = random.choice([0, 1, 2, 3, 12, SP, LR, PC, random.randrange(16)])
    place = random.choice([0x02000000, 0x01FF8000, 0x02FFFFFC, random.getrandbits(32)]) + random.choice([0, 4, 0x100, 3]) & TOP
    limit = random.choice([0, 1, 2, 9, 255, 0x3FFFFFFE, random.getrandbits(random.randrange(1, 33))])
    if machine == 1:
        return random.choice([(0, 0, 0, 0), (1, reg, 0, 0), (1, reg, 0, 0), (2, random.randrange(5, 9), 0, 0)])
    if machine == 2:
        return random.randrange(7), 0, 0, 0
    if machine == 3:
        return random.choice([(0, 0, 0, 0), (1, reg, place, 0x100), (1, reg, place, limit), (2, place, 0x100, 0)])
    tag = random.randrange(6)
    return [(0, 0, 0, 0), (tag, reg, limit, 0), (5, place, limit, 0)][0 if tag == 0 else 2 if tag == 5 else 1]


def at_random(makers):
    pools = {machine: words for machine, _, words, _ in makers}
    every = [word for words in pools.values() for word in words]
    while True:
        machine = random.choice([1, 2, 3, 3, 4, 4])
        state = random_state(machine)
        word = mutated(random.choice(pools[machine] if random.random() < 0.8 else every))
        # The machine's own register and table are met more often than chance would have it.
        if state[0] and machine in (1, 3, 4) and random.random() < 0.5 and state[1] < 16:
            place = random.choice([0, 16])
            word = word & ~(15 << place) | state[1] << place
        address = random.choice([0x02000000, 0x02000004, 0x01FF8000, 0x02FFFFFC, random.getrandbits(24) + 0x02000000, random.getrandbits(32)])
        if machine == 4 and state[0] == 5 and random.random() < 0.7:
            address = state[1] + 4 * (state[2] & 0xFFFF) + random.choice([-4, -1, 0, 1, 4]) & TOP
        yield machine, state, address, word


# ---- the original's answers, and the sample

def pack(record):
    machine, state, address, word = record
    return struct.pack('>8I', machine, *state, 0, address, word)


def comparable(record, answer):
    """Not where the port refuses a table's end, or accepts a sum, that the original does not look at or panics on the way to."""
    machine, state, address, word = record
    _, tag, a, b, c, _, _ = answer
    if machine == 3 and tag == OVERFLOW:
        amount = 2 * (word >> 8 & 15)
        byte = word & 255
        total = address + 0x108 - ((byte >> amount | byte << 32 - amount) & TOP)
        return total < 0 or TOP < total
    if machine == 3 and tag == 2:
        return a + b <= TOP
    if machine == 4 and tag == 0 and state[0] == 5:
        return state[1] + 4 * (state[2] + 1) <= TOP
    return True


def main():
    folder = pathlib.Path(sys.argv[2]) if len(sys.argv) == 5 else pathlib.Path(__file__).resolve().parents[2] / 'crates/machines'
    count, seed = (int(sys.argv[3]), int(sys.argv[4])) if len(sys.argv) == 5 else (COUNT, SEED)
    random.seed(seed)
    makers = [illegal_code(), function_branch(), inline_table(), jump_table()]
    chosen = [record for maker in makers for record in crossed(*maker)] + list(at_the_limits())
    planned = len(set(chosen))
    # More than will be needed, since some are left out.
    chosen += itertools.islice(at_random(makers), 2 * count)
    chosen = list(dict.fromkeys(chosen))
    answers = subprocess.run([sys.argv[1]], input=b''.join(map(pack, chosen)), capture_output=True, check=True).stdout.decode().splitlines()
    kept = [(record, line) for record, line in zip(chosen, answers, strict=True)
            if comparable(record, [int(number, 16) for number in line.split()])][:count]
    (folder / 'stdin').write_bytes(b''.join(pack(record) for record, _ in kept))
    (folder / 'stdout').write_text(''.join(line + '\n' for _, line in kept))
    print(f'{len(kept)} records: {planned} planned, less those left out, and the rest at random')


if __name__ == '__main__':
    main()
