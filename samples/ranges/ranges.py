#!/usr/bin/env python3
"""Branch destinations and load offsets at both ends of their ranges, and immediates at each rotation, by document 01's rules.

Makes crates/ranges/stdin (records of word and address, four bytes each, big-endian) and crates/ranges/stdout (word, address, destination,
load offset as 32 bits, immediate operand, in hexadecimal). The rules are written out below from the document, over Python's integers:

  a branch adds address + 8 and the signed 24-bit offset times 4, modulo 2^32; BLX with an immediate adds 2 more where bit 24 is set;
  a load or store with an immediate has bits 11 to 0, subtracted where bit 23 is clear;
  an immediate operand is eight bits rotated right by twice the four-bit field.
"""

import os

ADDRESSES = [0x00000000, 0x00000004, 0x01FF8000, 0x02000000, 0x02FFFFFC, 0x7FFFFFFC, 0x80000000, 0xFFFFFFF8, 0xFFFFFFFC]

# both ends, zero and one step to each side, of B, BL, BLX with H clear and set; a conditional branch
BRANCHES = [kind << 24 | offset
            for kind in (0xEA, 0xEB, 0x0A, 0xFA, 0xFB)
            for offset in (0x000000, 0x000001, 0x7FFFFF, 0x800000, 0x800001, 0xFFFFFE, 0xFFFFFF)]

# both ends and zero of LDR off PC, up and down, pre-indexed, written back, post-indexed, and of STR and LDRB
LOADS = [top << 16 | 0x0000 | offset
         for top in (0xE59F, 0xE51F, 0xE5BF, 0xE53F, 0xE49F, 0xE41F, 0xE58D, 0xE50D, 0xE5DF, 0xE55F)
         for offset in (0x000, 0x001, 0x004, 0x7FF, 0x800, 0xFFE, 0xFFF)]

# MOV with each rotation: all eight bits, and the lowest alone
IMMEDIATES = [0xE3A00000 | field << 8 | eight for field in range(16) for eight in (0xFF, 0x01)]


def destination(word, address):
    offset = word & 0xFFFFFF
    if offset & 0x800000:
        offset -= 0x1000000
    half = 2 if word >> 28 == 15 and word >> 24 & 1 else 0
    return (address + 8 + 4 * offset + half) % 2**32


def load_offset(word):
    if word >> 25 & 1:
        return 0
    offset = word & 0xFFF
    return (offset if word >> 23 & 1 else -offset) % 2**32


def immediate(word):
    if not word >> 25 & 1:
        return 0
    bits = f"{word & 0xFF:032b}"
    turn = 2 * (word >> 8 & 15)
    return int(bits[32 - turn:] + bits[:32 - turn], 2)


def main():
    here = os.path.dirname(os.path.abspath(__file__))
    records = [(word, address) for word in BRANCHES for address in ADDRESSES] + [(word, 0x02000000) for word in LOADS + IMMEDIATES]
    with open(os.path.join(here, "../../crates/ranges/stdin"), "wb") as file:
        file.write(b"".join(number.to_bytes(4, "big") for record in records for number in record))
    with open(os.path.join(here, "../../crates/ranges/stdout"), "w") as file:
        for word, address in records:
            file.write(f"{word:08x} {address:08x} {destination(word, address):08x} {load_offset(word):08x} {immediate(word):08x}\n")
    print(len(records), "records")


main()
