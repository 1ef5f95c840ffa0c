#!/usr/bin/env python3
"""A sample of ARM words, each with its class, as a stored test for an ARMv5TE decoder.

The class of a word is the one GNU objdump gives it, except in the named GROUPS
below, where objdump and the ARMv5TE manual (ARM DDI 0100E) differ; there the
class is the manual's.

  sample.py           make the words (crates/replay/stdin), their classes
                      (crates/replay/stdout) and GROUPS.md
  sample.py --check   make them again in memory, compare them with the stored
                      files, and compare every class with DIAGRAMS, a second
                      classifier written from the manual's encoding diagrams

Either way the script fails if a mnemonic is unknown, if a word fits two groups,
if a group holds a word on which objdump and the manual agree, or if the classes
do not depend on the deciding bits only.
"""

import argparse
import collections
import os
import re
import subprocess
import sys
import tempfile

CLASSES = """
    ADC ADD AND B BIC BKPT BL BLX1 BLX2 BX CDP CLZ CMN CMP EOR LDC LDM LDR LDRB
    LDRBT LDRD LDRH LDRSB LDRSH LDRT MCR MCRR MLA MOV MRC MRRC MRS MSR MUL MVN
    ORR PLD QADD QDADD QDSUB QSUB RSB RSC SBC SMLAL SMLALXY SMLAWY SMLAXY SMULL
    SMULWY SMULXY STC STM STR STRB STRBT STRD STRH STRT SUB SWI SWP SWPB TEQ TST
    UMLAL UMULL PUSH POP LSL LSR ASR ROR ILLEGAL""".split()

MOST_WORDS = 16384
FEWEST_PER_CLASS = 20
FEWEST_CONDITIONS = 8     # under how many conditions a conditional class appears
UNCONDITIONAL = 15        # the condition 1111
ALWAYS = 14

CONDITIONS = "eq ne cs cc mi pl vs vc hi ls ge lt gt le".split() + [""]

DATA_PROCESSING = ("AND EOR SUB RSB ADD ADC SBC RSC "
                   "TST TEQ CMP CMN ORR MOV BIC MVN").split()
COMPARES = "TST TEQ CMP CMN".split()
SHIFTS = "LSL LSR ASR ROR".split()

EXAMPLES = [int(text, 16) for text in """
    e59f0000 e12fff1e 12345678 eafffffe 0afffffd ea00003e e3500002 908ff100
    e59fc000 e12fff1c e3500000 e1a00004 e7f000f0 e1a01101 e8810001 e7810001
    e89f8000 eafffffd e59f0fff e3500101 e0000291 e4b01004 ec410000 e52de004
    e49df004 e52d4004 e49d8004 e72d0004 e69d0004""".split()]


# ---------------------------------------------------------------- bit patterns

class Pattern:
    """A row of an encoding diagram, bit 31 first.

    0 1   fixed bits        z o   should be zero, should be one
    .     any bit           cccc  (leading) any condition but 1111
    """

    def __init__(self, text):
        bits = text.replace(" ", "")
        if len(bits) != 32 or not re.fullmatch("(cccc)?[01zo.]+", bits):
            raise ValueError("bad pattern: " + text)
        self.text = text
        self.conditional = bits.startswith("cccc")
        self.fixed = self.value = self.should = self.should_value = 0
        for place, letter in enumerate(bits):
            bit = 1 << 31 - place
            if letter in "01":
                self.fixed |= bit
                self.value |= bit if letter == "1" else 0
            elif letter in "zo":
                self.should |= bit
                self.should_value |= bit if letter == "o" else 0

    def fits(self, word):
        if self.conditional and condition(word) == UNCONDITIONAL:
            return False
        return word & self.fixed == self.value

    def well_formed(self, word):
        return word & self.should == self.should_value

    def fill(self, word):
        """The word with the fixed and should-be bits of this pattern."""
        kept = word & ~(self.fixed | self.should) & 0xffffffff
        word = kept | self.value | self.should_value
        if self.conditional and condition(word) == UNCONDITIONAL:
            word = with_condition(word, ALWAYS)
        return word


def field(word, high, low):
    return word >> low & (1 << high - low + 1) - 1


def condition(word):
    return word >> 28


def with_condition(word, cond):
    return word & 0x0fffffff | cond << 28


def coprocessor(word):
    return field(word, 11, 8)


def shift_amount(word):
    return field(word, 11, 7)


# ----------------------------------------- second classifier: the manual's diagrams

def make_diagrams():
    """(class, pattern) rows; the first that fits names the word, none is ILLEGAL."""
    rows = []

    def draw(name, *texts):
        rows.extend((name, Pattern(text)) for text in texts)

    # The naming rules: a narrower row stands before the wider one.
    draw("PUSH", "cccc 1001 0010 1101 .... .... .... ....",   # STMDB SP!
                 "cccc 0101 0010 1101 .... 0000 0000 0100")   # STR Rd, [SP, #-4]!
    draw("POP", "cccc 1000 1011 1101 .... .... .... ....",    # LDMIA SP!
                "cccc 0100 1001 1101 .... 0000 0000 0100")    # LDR Rd, [SP], #4
    draw("MOV", "cccc 0001 101. zzzz .... 0000 0000 ....",    # LSL #0
                "cccc 0001 101. zzzz .... 0000 0110 ....")    # RRX
    for kind, name in enumerate(SHIFTS):
        draw(name, f"cccc 0001 101. zzzz .... .... .{kind:02b}0 ....",
                   f"cccc 0001 101. zzzz .... .... 0{kind:02b}1 ....")

    for code, name in enumerate(DATA_PROCESSING):
        sets_flags = "1" if name in COMPARES else "."
        first = "zzzz" if name in ("MOV", "MVN") else "...."
        target = "zzzz" if name in COMPARES else "...."
        head = f"{code:04b}{sets_flags} {first} {target}"
        draw(name, f"cccc 000{head} .... ...0 ....",
                   f"cccc 000{head} .... 0..1 ....",
                   f"cccc 001{head} .... .... ....")

    draw("MUL", "cccc 0000 000. .... zzzz .... 1001 ....")
    draw("MLA", "cccc 0000 001. .... .... .... 1001 ....")
    draw("UMULL", "cccc 0000 100. .... .... .... 1001 ....")
    draw("UMLAL", "cccc 0000 101. .... .... .... 1001 ....")
    draw("SMULL", "cccc 0000 110. .... .... .... 1001 ....")
    draw("SMLAL", "cccc 0000 111. .... .... .... 1001 ....")
    draw("SWP", "cccc 0001 0000 .... .... zzzz 1001 ....")
    draw("SWPB", "cccc 0001 0100 .... .... zzzz 1001 ....")

    for name, load, code in (("STRH", 0, "01"), ("LDRH", 1, "01"),
                             ("LDRSB", 1, "10"), ("LDRSH", 1, "11")):
        draw(name, f"cccc 000. .0.{load} .... .... zzzz 1{code}1 ....",
                   f"cccc 000. .1.{load} .... .... .... 1{code}1 ....")
    for name, code in (("LDRD", "10"), ("STRD", "11")):
        draw(name, f"cccc 000. .0.0 .... ...0 zzzz 1{code}1 ....",
                   f"cccc 000. .1.0 .... ...0 .... 1{code}1 ....")

    draw("MRS", "cccc 0001 0.00 oooo .... zzzz 0000 zzzz")
    draw("MSR", "cccc 0001 0.10 .... oooo zzzz 0000 ....",
                "cccc 0011 0.10 .... oooo .... .... ....")
    draw("BX", "cccc 0001 0010 oooo oooo oooo 0001 ....")
    draw("CLZ", "cccc 0001 0110 oooo .... oooo 0001 ....")
    draw("BLX2", "cccc 0001 0010 oooo oooo oooo 0011 ....")
    draw("BKPT", "cccc 0001 0010 .... .... .... 0111 ....")
    draw("QADD", "cccc 0001 0000 .... .... zzzz 0101 ....")
    draw("QSUB", "cccc 0001 0010 .... .... zzzz 0101 ....")
    draw("QDADD", "cccc 0001 0100 .... .... zzzz 0101 ....")
    draw("QDSUB", "cccc 0001 0110 .... .... zzzz 0101 ....")
    draw("SMLAXY", "cccc 0001 0000 .... .... .... 1..0 ....")
    draw("SMLAWY", "cccc 0001 0010 .... .... .... 1.00 ....")
    draw("SMULWY", "cccc 0001 0010 .... zzzz .... 1.10 ....")
    draw("SMLALXY", "cccc 0001 0100 .... .... .... 1..0 ....")
    draw("SMULXY", "cccc 0001 0110 .... zzzz .... 1..0 ....")

    for name, byte, load in (("STR", 0, 0), ("LDR", 0, 1),
                             ("STRB", 1, 0), ("LDRB", 1, 1)):
        draw(name + "T", f"cccc 0100 .{byte}1{load} .... .... .... .... ....",
                         f"cccc 0110 .{byte}1{load} .... .... .... ...0 ....")
        draw(name, f"cccc 010. .{byte}.{load} .... .... .... .... ....",
                   f"cccc 011. .{byte}.{load} .... .... .... ...0 ....")
    draw("STM", "cccc 100. ...0 .... .... .... .... ....")
    draw("LDM", "cccc 100. ...1 .... .... .... .... ....")
    draw("B", "cccc 1010 .... .... .... .... .... ....")
    draw("BL", "cccc 1011 .... .... .... .... .... ....")
    draw("BLX1", "1111 101. .... .... .... .... .... ....")
    # Bit 24 should be one and bit 21 zero: other values are UNPREDICTABLE.
    draw("PLD", "1111 010o .1z1 .... oooo .... .... ....",
                "1111 011o .1z1 .... oooo .... ...0 ....")

    draw("MCRR", "cccc 1100 0100 .... .... .... .... ....")
    draw("MRRC", "cccc 1100 0101 .... .... .... .... ....")
    for cond in ("cccc", "1111"):
        for name, load in (("STC", 0), ("LDC", 1)):
            draw(name, f"{cond} 1101 ...{load} .... .... .... .... ....",
                       f"{cond} 1100 1..{load} .... .... .... .... ....",
                       f"{cond} 1100 0.1{load} .... .... .... .... ....")
        draw("CDP", f"{cond} 1110 .... .... .... .... ...0 ....")
        draw("MCR", f"{cond} 1110 ...0 .... .... .... ...1 ....")
        draw("MRC", f"{cond} 1110 ...1 .... .... .... ...1 ....")
    draw("SWI", "cccc 1111 .... .... .... .... .... ....")
    return rows


DIAGRAMS = make_diagrams()
NAMING_DIAGRAMS = 14      # the first rows: PUSH, POP, LSL #0, RRX and the shifts


def diagram_row(word):
    """The (class, pattern) row of the word; the pattern is None if ILLEGAL."""
    for name, pattern in DIAGRAMS:
        if pattern.fits(word):
            return name, pattern
    return "ILLEGAL", None


# ------------------------------------------- the rule on which bits decide a class

def key(word):
    """The bits that decide the class before the naming rules."""
    return (condition(word) == UNCONDITIONAL, field(word, 27, 20),
            field(word, 7, 4), field(word, 12, 12))


def unnamed(name, word):
    """The class before the naming rules."""
    if name in SHIFTS:
        return "MOV"
    if name in ("PUSH", "POP"):
        block = field(word, 27, 25) == 0b100
        return {"PUSH": "STM" if block else "STR", "POP": "LDM" if block else "LDR"}[name]
    return name


def named(name, word):
    """The class after the naming rules."""
    top = field(word, 27, 16)
    if name == "STM" and top == 0b1001_0010_1101:
        return "PUSH"
    if name == "LDM" and top == 0b1000_1011_1101:
        return "POP"
    if name == "STR" and top == 0b0101_0010_1101 and field(word, 11, 0) == 4:
        return "PUSH"
    if name == "LDR" and top == 0b0100_1001_1101 and field(word, 11, 0) == 4:
        return "POP"
    if name == "MOV" and field(word, 25, 25) == 0:
        kind = field(word, 6, 5)
        by_register = field(word, 4, 4)
        if by_register or kind in (1, 2) or shift_amount(word):
            return SHIFTS[kind]
    return name


# ------------------------------------------------------------------------- objdump

OBJDUMP_OPTIONS = ["-D", "-z", "-b", "binary", "-EB", "-m", "armv5te",
                   "-M", "reg-names-raw"]


def make_mnemonics():
    """Every spelling of every mnemonic -> (class, condition or None)."""
    table = {}

    def spell(name, *stems, endings=("",)):
        for stem in stems:
            for ending in endings:
                for number, cond in enumerate(CONDITIONS):
                    spelling = stem + ending + cond
                    entry = (name, number)
                    # 'bls' must not be read as 'bl' + 's', and so on.
                    if table.setdefault(spelling, entry) != entry:
                        raise ValueError("mnemonic spelt twice: " + spelling)

    flags = ("", "s")
    for name in DATA_PROCESSING:
        # A compare with Rd = 1111 is printed with the old ending 'p'.
        spell(name, name.lower(), endings=("", "p") if name in COMPARES else flags)
    for name in SHIFTS + "MUL MLA UMULL UMLAL SMULL SMLAL".split():
        spell(name, name.lower(), endings=flags)
    spell("MOV", "rrx", endings=flags)
    for name in """B BL BKPT BX CDP CLZ LDR LDRB LDRBT LDRD LDRH LDRSB LDRSH LDRT
                   MCR MCRR MRC MRRC MRS MSR PLD QADD QDADD QDSUB QSUB STR STRB
                   STRBT STRD STRH STRT SWP SWPB PUSH POP""".split():
        spell(name, name.lower())
    spell("BLX", "blx")
    spell("SWI", "svc")
    for name in ("CDP", "MCR", "MRC"):
        spell(name, name.lower() + "2")
    for name in ("LDC", "STC"):
        spell(name, *(name.lower() + form for form in ("", "l", "2", "2l")))
    for name in ("LDM", "STM"):
        spell(name, *(name.lower() + mode for mode in ("", "ia", "ib", "da", "db", "fd")))
    for stem in ("smla", "smul", "smlal"):
        spell(stem.upper() + "XY", *(stem + halves for halves in ("bb", "bt", "tb", "tt")))
    for stem in ("smlaw", "smulw"):
        spell(stem.upper() + "Y", stem + "b", stem + "t")
    # The permanently undefined word of later manuals.
    table["udf"] = ("ILLEGAL", None)
    return table


MNEMONICS = make_mnemonics()

# Mnemonics of instructions that the ARMv5TE manual does not hold. objdump knows
# these whatever machine it is told: NOP, VFP and Advanced SIMD, FPA, Maverick,
# load-acquire and store-release. A word so named is absent from the manual.
ABSENT = re.compile(r"nop|v[a-z]+[0-9]?[a-z]*(\..*)?|(aes|sha)[a-z0-9]+(\..*)?"
                    r"|(ld|st)f[a-z]*|[ls]fm[a-z]*|f(ld|st)m[a-z]*"
                    r"|cf(ld|st)r[a-z0-9]*|(lda|stl)[a-z]*")


class Failure(Exception):
    """Something that the sample must not contain."""


def objdump_version(objdump):
    text = subprocess.run([objdump, "--version"], capture_output=True, text=True,
                          check=True).stdout
    return text.splitlines()[0]


def disassemble(objdump, words):
    """(mnemonic, operands) of each word; the mnemonic is '' for an undefined one."""
    with tempfile.TemporaryDirectory() as directory:
        path = os.path.join(directory, "words.bin")
        with open(path, "wb") as file:
            file.write(as_bytes(words))
        text = subprocess.run([objdump, *OBJDUMP_OPTIONS, path], capture_output=True,
                              text=True, check=True).stdout
    lines = []
    for line in text.splitlines():
        parts = line.split("\t")
        if len(parts) < 3 or not re.fullmatch(r" *[0-9a-f]+:", parts[0]):
            continue
        rest = "\t".join(parts[3:])
        lines.append((int(parts[1], 16), parts[2].strip(), rest))
    if [line[0] for line in lines] != words:
        raise Failure("objdump did not print every word")
    return [line[1:] for line in lines]


def objdump_class(word, mnemonic, operands):
    if not mnemonic:
        if "<UNDEFINED>" not in operands:
            raise Failure(f"{word:08x}: no mnemonic: {operands}")
        return "ILLEGAL"
    if mnemonic in MNEMONICS:
        name, cond = MNEMONICS[mnemonic]
        if cond is not None and cond != min(condition(word), ALWAYS):
            raise Failure(f"{word:08x}: the condition of '{mnemonic}' is not the word's")
        if name == "BLX":
            name = "BLX2" if re.match(r"r\d", operands) else "BLX1"
        return name
    if ABSENT.fullmatch(mnemonic):
        return "ILLEGAL"
    raise Failure(f"{word:08x}: unknown mnemonic '{mnemonic}'")


# -------------------------------------------------------------------------- groups

class Row:
    """Words of a group: a pattern, the manual's class, and a condition on fields.

    wrong: only the words where a should-be bit of the pattern is wrong.
    """

    def __init__(self, text, name, wrong=False, when=None, note=""):
        self.pattern = Pattern(text)
        self.name = name
        self.wrong = wrong
        self.when = when
        self.note = note

    def fits(self, word):
        return (self.pattern.fits(word)
                and not (self.wrong and self.pattern.well_formed(word))
                and (self.when is None or self.when(word)))


Group = collections.namedtuple("Group", "name words objdump says manual rows")
# words, objdump, manual: text for people; says: the classes objdump gives.


def should_be_rows():
    """Only the should-be bits on which objdump insists."""
    def wrong(name, *texts, when=None, note=""):
        return [Row(text, name, True, when, note) for text in texts]

    rows = wrong("MOV", "cccc 0011 101. zzzz .... .... .... ....",
                        "cccc 0001 101. zzzz .... 0000 0000 ....",
                        "cccc 0001 101. zzzz .... 0000 0110 ....")
    for kind, name in enumerate(SHIFTS):
        amount = shift_amount if name in ("LSL", "ROR") else None
        rows += wrong(name, f"cccc 0001 101. zzzz .... .... .{kind:02b}0 ....", when=amount,
                      note="amount not 0" if amount else "")
        rows += wrong(name, f"cccc 0001 101. zzzz .... .... 0{kind:02b}1 ....")
    rows += wrong("STRH", "cccc 000. .0.0 .... .... zzzz 1011 ....")
    rows += wrong("LDRH", "cccc 000. .0.1 .... .... zzzz 1011 ....")
    rows += wrong("LDRSB", "cccc 000. .0.1 .... .... zzzz 1101 ....")
    rows += wrong("LDRSH", "cccc 000. .0.1 .... .... zzzz 1111 ....")
    rows += wrong("SWP", "cccc 0001 0000 .... .... zzzz 1001 ....")
    rows += wrong("SWPB", "cccc 0001 0100 .... .... zzzz 1001 ....")
    rows += wrong("MRS", "cccc 0001 0.00 .... .... zz.. 0000 zzzz")
    rows += wrong("MSR", "cccc 0001 0.10 .... oooo .... 0000 ....",
                         "cccc 0011 0.10 .... oooo .... .... ....")
    rows += wrong("BX", "cccc 0001 0010 oooo oooo oooo 0001 ....")
    rows += wrong("BLX2", "cccc 0001 0010 oooo oooo oooo 0011 ....")
    rows += wrong("CLZ", "cccc 0001 0110 oooo .... oooo 0001 ....")
    rows += wrong("QADD", "cccc 0001 0000 .... .... zzzz 0101 ....")
    rows += wrong("QSUB", "cccc 0001 0010 .... .... zzzz 0101 ....")
    rows += wrong("QDADD", "cccc 0001 0100 .... .... zzzz 0101 ....")
    rows += wrong("QDSUB", "cccc 0001 0110 .... .... zzzz 0101 ....")
    rows += wrong("SMULWY", "cccc 0001 0010 .... zzzz .... 1.10 ....")
    rows += wrong("SMULXY", "cccc 0001 0110 .... zzzz .... 1..0 ....")
    return rows


# Coprocessors whose loads and stores objdump reads as FPA (1, 2), Maverick (4, 5)
# or VFP (10, 11), or refuses (9).
FLOAT_TRANSFER = (1, 2, 4, 5, 9, 10, 11)


def in_float_transfer(word):
    return coprocessor(word) in FLOAT_TRANSFER


def not_in_float_transfer(word):
    return coprocessor(word) not in FLOAT_TRANSFER


def one_register(word):
    return bin(field(word, 15, 0)).count("1") == 1


def float_rows():
    rows = []
    for name, load in (("STC", 0), ("LDC", 1)):
        rows += [Row(f"cccc {bits}{load} .... .... .... .... ....", name,
                     when=in_float_transfer, note="coprocessor 1, 2, 4, 5, 9, 10, 11")
                 for bits in ("1101 ...", "1100 1..", "1100 0.1")]
    for name, load in (("MCRR", 0), ("MRRC", 1)):
        rows.append(Row(f"cccc 1100 010{load} .... .... .... .... ....", name,
                        when=lambda word: coprocessor(word) in (1, 2, 4, 5),
                        note="coprocessor 1, 2, 4, 5"))
        rows.append(Row(f"cccc 1100 010{load} .... .... 1011 00.1 ....", name))
    rows.append(Row("cccc 1110 .... .... .... 1001 ...0 ....", "CDP"))
    rows.append(Row("cccc 1110 .... .... .... 101. ...0 ....", "CDP"))
    rows.append(Row("cccc 1110 ...0 .... .... 1001 ...1 ....", "MCR"))
    rows.append(Row("cccc 1110 ...0 .... .... 101. ...1 ....", "MCR"))
    rows.append(Row("cccc 1110 0001 .... .... 1010 .001 0000", "MRC"))
    return rows


GROUPS = [
    Group("control space, unallocated codes",
          "bits 27-23 = 00010, bit 20 = 0, bits 7-4 in 0001..0111 with no instruction",
          "tst, cmp, cmn (compares with the S bit clear) or msr", "TST CMP CMN MSR",
          "UNDEFINED: A3, control instruction extension space",
          [Row(f"cccc 0001 0.00 .... .... .... {code} ....", "ILLEGAL")
           for code in ("0001", "001.", "0100", "011.")]
          + [Row(f"cccc 0001 0110 .... .... .... {code} ....", "ILLEGAL")
             for code in ("001.", "0100", "011.")]
          + [Row(f"cccc 0001 0010 .... 1111 .... {code} ....", "ILLEGAL")
             for code in ("0010", "0100", "0110")]),
    Group("00110x00",
          "bits 27-20 = 00110x00",
          "tst or cmp with the S bit clear", "TST CMP",
          "UNDEFINED: A3, figure of the instruction set encoding, and control"
          " instruction extension space",
          [Row("cccc 0011 0.00 .... .... .... .... ....", "ILLEGAL")]),
    Group("swap space, unallocated codes",
          "bits 27-24 = 0001, bits 7-4 = 1001, neither SWP nor SWPB",
          "teq, lsl or msr with an `<illegal shifter operand>`", "TEQ LSL MSR",
          "UNDEFINED: A3, load/store instruction extension space",
          [Row("cccc 0001 0011 .... .... .... 1001 ....", "ILLEGAL",
               when=lambda word: field(word, 11, 8), note="bits 11-8 not 0"),
           Row("cccc 0001 101. 0000 .... .... 1001 ....", "ILLEGAL"),
           Row("cccc 0001 0.10 .... 1111 .... 1001 ....", "ILLEGAL")]),
    Group("LDRD and STRD, odd register",
          "the forms of LDRD and STRD with bit 12 set",
          "ldrd or strd", "LDRD STRD",
          "UNDEFINED: A10, LDRD and STRD, notes on Rd",
          [Row("cccc 000. ...0 .... ...1 .... 11.1 ....", "ILLEGAL")]),
    Group("BKPT under a condition",
          "the form of BKPT, condition neither AL nor 1111",
          "undefined, or msr if bits 15-12 are ones", "ILLEGAL MSR",
          "UNPREDICTABLE, so BKPT by its fields: A4, BKPT, notes on the condition",
          [Row("cccc 0001 0010 .... .... .... 0111 ....", "BKPT",
               when=lambda word: condition(word) != ALWAYS, note="condition not AL")]),
    Group("should-be bits wrong",
          "a should-be-zero or should-be-one bit of an instruction has the other value",
          "undefined, or a compare, shift or msr whose looser pattern fits",
          "ILLEGAL TST TEQ CMP CMN MSR LSR ASR ROR",
          "UNPREDICTABLE, so named by its fields: preface and A4/A10, SBZ and SBO"
          " fields of each diagram",
          should_be_rows()),
    Group("PLD, bit 21 set",
          "PLD with the W bit set",
          "undefined", "ILLEGAL",
          "UNPREDICTABLE, so PLD by its fields: A10, PLD, notes on write-back",
          [Row("1111 010. .111 .... .... .... .... ....", "PLD"),
           Row("1111 011. .111 .... .... .... ...0 ....", "PLD")]),
    Group("PLD, bits 15-12 not ones",
          "PLD with bit 21 clear and a zero in bits 15-12",
          "undefined", "ILLEGAL",
          "taken as should-be-one bits, so PLD by its fields: A10, PLD",
          [Row("1111 010. .101 .... oooo .... .... ....", "PLD", wrong=True),
           Row("1111 011. .101 .... oooo .... ...0 ....", "PLD", wrong=True)]),
    Group("PLD, register form with bit 4 set",
          "condition 1111, bits 27-25 = 011, bits 22-20 = 101, bit 4 = 1",
          "pld", "PLD",
          "UNDEFINED: A3, unconditional instruction extension space; bit 4 is zero in"
          " the register offsets of A5, addressing mode 2",
          [Row("1111 011. .101 .... 1111 .... ...1 ....", "ILLEGAL")]),
    Group("coprocessor space, unallocated codes",
          "bits 27-20 = 1100000x; under condition 1111 also 1100010x",
          "stc, ldc, stc2, ldc2, stc2l or ldc2l", "STC LDC",
          "UNDEFINED (bit 22 clear) or absent (no unconditional MCRR, MRRC): A3,"
          " coprocessor instruction extension space",
          [Row("cccc 1100 000. .... .... .... .... ....", "ILLEGAL",
               when=not_in_float_transfer, note="coprocessor not 1, 2, 4, 5, 9, 10, 11"),
           Row("1111 1100 0.0. .... .... .... .... ....", "ILLEGAL",
               when=lambda word: coprocessor(word) not in (8, 12, 13),
               note="coprocessor not 8, 12, 13")]),
    Group("floating-point coprocessors",
          "coprocessor instructions with the number of a floating-point coprocessor",
          "FPA, Maverick or VFP instructions, or undefined", "ILLEGAL",
          "the number does not change the instruction: A4/A10, coprocessor instructions",
          float_rows()),
    Group("alias: one register pushed or popped by STM, LDM",
          "STMDB SP! or LDMIA SP! with one register in the list, S bit clear",
          "stmfd or ldmfd", "STM LDM",
          "the same instruction, here PUSH or POP: A4, STM (1) and LDM (1)",
          [Row("cccc 1001 0010 1101 .... .... .... ....", "PUSH", when=one_register,
               note="one register"),
           Row("cccc 1000 1011 1101 .... .... .... ....", "POP", when=one_register,
               note="one register")]),
    Group("alias: nop",
          "e1a00000, MOV r0, r0",
          "nop", "ILLEGAL",
          "MOV: A4, MOV (the manual has no ARM NOP)",
          [Row("1110 0001 1010 0000 0000 0000 0000 0000", "MOV")]),
]


# ----------------------------------------------------------------- making the words

class Draw:
    """A small generator (xorshift), so that the words never change."""

    def __init__(self, seed):
        self.state = seed

    def word(self):
        state = self.state
        state ^= state << 13 & 0xffffffff
        state ^= state >> 17
        state ^= state << 5 & 0xffffffff
        self.state = state
        # Xorshift alone is linear, so bits of later words could move together.
        product = state * 0x9e3779b1 & 0xffffffff
        return product ^ product >> 15

    def pick(self, choices):
        return choices[(self.word() >> 8) % len(choices)]


def plain_coprocessors(word):
    """Numbers that objdump does not read as a coprocessor it knows.

    The known ones come in words of their own, so that their group stays exact.
    """
    if condition(word) == UNCONDITIONAL:
        return (0, 1, 2, 3, 4, 5, 6, 7, 14, 15)
    if field(word, 27, 24) == 0b1110:
        return (0, 2, 3, 7, 8, 12, 13, 14, 15)
    if field(word, 27, 20) in (0b11000100, 0b11000101):
        return (0, 3, 6, 7, 8, 9, 12, 13, 14, 15)
    return (0, 3, 6, 7, 8, 12, 13, 14)


class Sample:
    """The words in order, each once."""

    def __init__(self):
        self.words = []
        self.seen = set()
        self.draw = Draw(0x5eed0a5e)

    def add(self, word):
        if word in self.seen:
            return False
        self.seen.add(word)
        self.words.append(word)
        return True

    def cond(self):
        return self.draw.pick(range(15))

    def tame(self, word):
        """Replace the coprocessor number, if the word has one."""
        if field(word, 27, 26) == 0b11 and field(word, 27, 24) != 0b1111:
            number = self.draw.pick(plain_coprocessors(word))
            word = word & ~0xf00 | number << 8
        return word

    def in_cell(self, unconditional, high, low, well_formed):
        """A word with these bits 27-20 and 7-4, the others drawn."""
        while True:
            word = self.draw.word() & ~0xfff000f0 | high << 20 | low << 4
            word = with_condition(word, UNCONDITIONAL if unconditional else self.cond())
            if well_formed:
                name, pattern = diagram_row(word)
                if pattern:
                    # The bits of the cell stay, even where PLD has should-be bits.
                    should = pattern.should & ~0x0ff000f0
                    word = word & ~should | pattern.should_value & should
                if name == "BKPT":
                    word = with_condition(word, ALWAYS)
            if self.add(self.tame(word)):
                return

    def of_pattern(self, text_or_pattern, cond=None, number=None):
        """A well-formed word of a pattern."""
        pattern = text_or_pattern
        if isinstance(pattern, str):
            pattern = Pattern(pattern)
        while True:
            word = self.draw.word()
            if pattern.conditional:
                word = with_condition(word, self.cond() if cond is None else cond)
            word = pattern.fill(word)
            if number is None:
                word = self.tame(word)
            else:
                word = word & ~0xf00 | number << 8
            if self.add(word):
                return


def add_cells(sample):
    """Every value of the deciding bits: well-formed, and with the other bits drawn."""
    for high in range(256):
        for low in range(16):
            sample.in_cell(False, high, low, True)
            sample.in_cell(False, high, low, False)
    for high in range(256):
        for low in range(16):
            sample.in_cell(True, high, low, True)
            preload = high & 0b11000101 == 0b01000101
            if preload or 0b1100 <= high >> 4 <= 0b1110:
                sample.in_cell(True, high, low, False)


def add_crowded_cells(sample):
    """More words where bits 7-4 choose among many instructions."""
    for high in range(32):
        for low in range(16):
            extension = low & 0b1001 == 0b1001
            control = high & 0b11001 == 0b10000 and not extension
            if extension or control:
                for _ in range(2):
                    sample.in_cell(False, high, low, True)
                    sample.in_cell(False, high, low, False)


def add_double_words(sample):
    """LDRD and STRD with an even and with an odd register, in every form."""
    for high in range(0, 32, 2):
        immediate = high & 0b100
        low_half = "...." if immediate else "zzzz"
        for code in ("1101", "1111"):
            for parity in "01":
                sample.of_pattern(f"cccc {high >> 4:04b} {high & 15:04b} .... ...{parity} "
                                  f"{low_half} {code} ....")


def add_register_lists(sample):
    """Both sides of the rules for PUSH and POP."""
    lists = (0x0000, 0x0001, 0x4000, 0x8000, 0x4010, 0x800f, 0xffff, 0x2000)
    for turn, registers in enumerate(lists):
        for top in (0b1001_0010_1101, 0b1000_1011_1101):
            for cond in (ALWAYS, turn, turn + 7):
                sample.add(cond << 28 | top << 16 | registers)
    # All 32 modes on SP, R12 and R15: only two of them on SP are renamed.
    for mode in range(32):
        for base in (12, 13, 15):
            word = 0b100 << 25 | mode << 20 | base << 16 | (0x00f0 + mode)
            sample.add(with_condition(word, sample.cond()))
    # Under condition 1111 the same bits are no instruction.
    sample.add(0xf92d4010)
    sample.add(0xf8bd8010)


def add_stack_transfers(sample):
    """Both sides of the rules for PUSH and POP of one register."""
    for top in (0b0101_0010, 0b0100_1001):
        for cond in range(15):
            for offset in (4, 8):
                target = sample.draw.pick(range(16))
                sample.add(cond << 28 | top << 20 | 13 << 16 | target << 12 | offset)
        for target in range(16):
            sample.add(ALWAYS << 28 | top << 20 | 13 << 16 | target << 12 | 4)
        # Under condition 1111 the same bits are no instruction.
        sample.add(UNCONDITIONAL << 28 | top << 20 | 13 << 16 | 14 << 12 | 4)
    # All 64 forms on R12, SP and R15, with an offset of 4 or of R4: only two of
    # them on SP are renamed.
    for form in range(64):
        for base in (12, 13, 15):
            word = 0b01 << 26 | form << 20 | base << 16 | 4
            word |= sample.draw.pick(range(16)) << 12
            sample.add(with_condition(word, sample.cond()))


def add_shifts(sample):
    """Both sides of the rules that rename MOV."""
    for flags in range(2):
        for kind in range(4):
            for amount in (0, 1, 2, 15, 16, 31):
                for _ in range(3):
                    sample.of_pattern(f"cccc 0001 101{flags} 0000 .... "
                                      f"{amount >> 1:04b} {amount & 1}{kind:02b}0 ....")
            for _ in range(4):
                sample.of_pattern(f"cccc 0001 101{flags} 0000 .... .... 0{kind:02b}1 ....")
            # MVN and ADD with the same operand are not renamed, nor is MOV of a constant.
            sample.of_pattern(f"cccc 0001 111{flags} 0000 .... .... .{kind:02b}0 ....")
            sample.of_pattern(f"cccc 0001 111{flags} 0000 .... .... 0{kind:02b}1 ....")
            sample.of_pattern(f"cccc 0000 100{flags} .... .... .... .{kind:02b}0 ....")
            sample.of_pattern(f"cccc 0011 101{flags} 0000 .... .... .{kind:02b}0 ....")
            sample.of_pattern(f"cccc 0011 101{flags} 0000 .... .... 0{kind:02b}1 ....")
    sample.add(0xe1a00000)
    sample.add(0xe1b00000)
    sample.add(0xe1a0f00e)


def add_float_coprocessors(sample):
    """Coprocessor numbers that objdump gives to coprocessors it knows."""
    for number in FLOAT_TRANSFER:
        for bits in ("1101 ...", "1100 1..", "1100 0.1"):
            for load in "01":
                sample.of_pattern(f"cccc {bits}{load} .... .... .... .... ....", number=number)
    for load in "01":
        for number in (1, 2, 4, 5):
            sample.of_pattern(f"cccc 1100 010{load} .... .... .... .... ....", number=number)
        for _ in range(2):
            sample.of_pattern(f"cccc 1100 010{load} .... .... .... 00.1 ....", number=11)
        sample.of_pattern(f"cccc 1100 000{load} .... .... .... .... ....", number=10)
    for number in (9, 10, 11):
        for _ in range(2):
            sample.of_pattern("cccc 1110 .... .... .... .... ...0 ....", number=number)
            sample.of_pattern("cccc 1110 ...0 .... .... .... ...1 ....", number=number)
    for _ in range(4):
        sample.of_pattern("cccc 1110 0001 .... .... .... .001 0000", number=10)


def add_one_bit_off(sample):
    """Words one bit away from a naming rule, or with one should-be bit wrong."""
    for number, (_, pattern) in enumerate(DIAGRAMS):
        naming = number < NAMING_DIAGRAMS
        for place in range(28):
            bit = 1 << place
            flips = 2 if naming and pattern.fixed & bit else bool(pattern.should & bit)
            while flips > 0:
                cond = sample.cond() if pattern.conditional else UNCONDITIONAL
                word = pattern.fill(with_condition(sample.draw.word(), cond)) ^ bit
                flips -= sample.add(sample.tame(word))


def add_group_words(sample):
    """At least three words in every row of every group."""
    for group in GROUPS:
        for row in group.rows:
            wanted = 3 - sum(row.fits(word) for word in sample.words)
            if row.pattern.fixed == 0xffffffff:
                wanted = 0
            while wanted > 0:
                word = sample.draw.word() & ~row.pattern.fixed | row.pattern.value
                if row.fits(word) and sample.add(word):
                    wanted -= 1


def add_conditions(sample):
    """Every class under every condition it can have, and often enough under AL."""
    found = collections.Counter()
    for word in sample.words:
        name, pattern = diagram_row(word)
        if pattern and pattern.well_formed(word):
            found[name, condition(word)] += 1
    patterns = collections.defaultdict(list)
    for name, pattern in DIAGRAMS:
        if pattern.conditional:
            patterns[name].append(pattern)
    for name, choices in patterns.items():
        for cond in range(15):
            while found[name, cond] < 2:
                sample.of_pattern(sample.draw.pick(choices), cond)
                found[name, cond] += 1
    # objdump names BKPT under AL only.
    while found["BKPT", ALWAYS] < FEWEST_PER_CLASS:
        sample.of_pattern(patterns["BKPT"][0], ALWAYS)
        found["BKPT", ALWAYS] += 1


def make_words():
    sample = Sample()
    for word in EXAMPLES:
        sample.add(word)
    add_cells(sample)
    add_crowded_cells(sample)
    add_double_words(sample)
    add_register_lists(sample)
    add_stack_transfers(sample)
    add_shifts(sample)
    add_float_coprocessors(sample)
    add_one_bit_off(sample)
    add_group_words(sample)
    add_conditions(sample)
    return sample.words


def as_bytes(words):
    return b"".join(word.to_bytes(4, "big") for word in words)


# -------------------------------------------------------------------- classification

Found = collections.namedtuple("Found", "row word mnemonic")


def classify(words, printed):
    """The class of each word, and the words found in each group."""
    classes = []
    members = collections.defaultdict(list)
    faults = []
    for word, (mnemonic, operands) in zip(words, printed):
        name = objdump_class(word, mnemonic, operands)
        fitting = [(group, row) for group in GROUPS for row in group.rows if row.fits(word)]
        if len(fitting) > 1:
            faults.append(f"{word:08x} fits two rows of groups: "
                          + ", ".join(group.name for group, _ in fitting))
        for group, row in fitting[:1]:
            if row.name == name:
                faults.append(f"{word:08x} {name}: group '{group.name}' hides an agreement")
            if name not in group.says.split():
                faults.append(f"{word:08x} {name}: not what group '{group.name}' expects")
            members[group.name].append(Found(row, word, mnemonic or "undefined"))
            name = row.name
        classes.append(name)
    for group in GROUPS:
        for row in group.rows:
            if not any(found.row is row for found in members[group.name]):
                faults.append(f"group '{group.name}' has no word of {row.pattern.text}")
    report(faults)
    return classes, members


def report(faults):
    if faults:
        raise Failure("\n".join(faults[:40] + [f"{len(faults)} faults"]))


def check_rule(words, classes):
    """The class depends only on the key, then on the naming rules."""
    faults = []
    by_key = collections.defaultdict(lambda: collections.defaultdict(list))
    for word, name in zip(words, classes):
        plain = unnamed(name, word)
        by_key[key(word)][plain].append(word)
        if named(plain, word) != name:
            faults.append(f"{word:08x} {name}: the naming rules give {named(plain, word)}")
    for place, names in by_key.items():
        if len(names) > 1:
            faults.append(f"key {place}: " + ", ".join(
                f"{name} ({len(found)} words, {found[0]:08x})" for name, found in names.items()))
    # Bit 12 decides only between LDRD or STRD and ILLEGAL.
    for place, names in by_key.items():
        if place[3] == 0:
            both = set(names) | set(by_key.get(place[:3] + (1,), ()))
            if len(both) > 1 and both not in ({"LDRD", "ILLEGAL"}, {"STRD", "ILLEGAL"}):
                faults.append(f"key {place}: bit 12 decides between {sorted(both)}")
    report(faults)


def check_cover(words, classes, members):
    faults = []
    if len(words) > MOST_WORDS or len(set(words)) != len(words):
        faults.append(f"{len(words)} words, {len(set(words))} of them different")
    cells = {key(word)[:3] for word in words}
    if len(cells) != 2 * 256 * 16:
        faults.append(f"only {len(cells)} values of the deciding bits")
    conditions = collections.defaultdict(set)
    for word, name in zip(words, classes):
        conditions[name].add(condition(word))
    grouped = {found.word for group in members.values() for found in group}
    counts = collections.Counter(name for word, name in zip(words, classes)
                                 if word not in grouped)
    for name in CLASSES:
        if counts[name] < FEWEST_PER_CLASS:
            faults.append(f"{name}: only {counts[name]} words with objdump's class")
        if name not in ("BLX1", "PLD") and len(conditions[name]) < FEWEST_CONDITIONS:
            faults.append(f"{name}: only {len(conditions[name])} conditions")
    for name in set(classes) - set(CLASSES):
        faults.append(f"{name} is no class")
    if set().union(*conditions.values()) != set(range(16)):
        faults.append("a condition is missing")
    for word in EXAMPLES:
        if word not in words:
            faults.append(f"example {word:08x} is missing")
    report(faults)


def check_diagrams(words, classes):
    """Compare with the second classifier."""
    faults = []
    for word, name in zip(words, classes):
        drawn = diagram_row(word)[0]
        if drawn != name:
            faults.append(f"{word:08x}: objdump and groups {name}, diagrams {drawn}")
    report(faults)


# ---------------------------------------------------------------------------- output

def classes_text(words, classes):
    return "".join(f"{word:08x} {name}\n" for word, name in zip(words, classes))


def group_table(members, total):
    lines = []
    in_groups = 0
    for group in GROUPS:
        count = len(members[group.name])
        in_groups += count
        lines.append(f"{count:6}  {group.name}")
    lines.append(f"{in_groups:6}  in a group")
    lines.append(f"{total - in_groups:6}  with objdump's class")
    lines.append(f"{total:6}  words")
    return "\n".join(lines)


def class_table(classes):
    counts = collections.Counter(classes)
    return " ".join(f"{name} {counts[name]}" for name in CLASSES)


def groups_page(version, words, classes, printed, members):
    """GROUPS.md."""
    total = sum(len(found) for found in members.values())
    grouped = {found.word for group in members.values() for found in group}
    absent = sum(1 for word, (mnemonic, _) in zip(words, printed)
                 if word not in grouped and mnemonic not in MNEMONICS
                 and ABSENT.fullmatch(mnemonic))
    lines = [
        "# Where objdump and the ARMv5TE manual differ",
        "",
        f"The sample (`crates/replay/stdin`, and `crates/replay/stdout` with the classes) holds {len(words)} words with their classes. {len(words) - total} have"
        f" the class that objdump gives; {total} are in the groups below and have the class"
        " of the ARMv5TE manual (ARM DDI 0100E; sections by chapter and title).",
        "",
        "| Group | Words | objdump | Manual | Count | Example |",
        "|---|---|---|---|---:|---|",
    ]
    for group in GROUPS:
        found = members[group.name]
        example = found[0]
        lines.append(f"| {group.name} | {group.words} | {group.objdump} | {group.manual}"
                     f" | {len(found)} | `{example.word:08x}`: {example.mnemonic},"
                     f" here {example.row.name} |")
    lines += [
        "",
        "## The rows of the groups",
        "",
        "`cccc` is any condition but 1111, `.` any bit, `z` a bit that should be zero, `o` one"
        " that should be one. A row with `z` or `o` holds only the words where at least one of"
        " them is wrong, and shows only those on which objdump insists. The script fails if a"
        " word fits two rows, if a row has no word, or if objdump's class is the row's class.",
        "",
        "| Group | Bits 31 to 0 | And | Class | Count | Example |",
        "|---|---|---|---|---:|---|",
    ]
    for group in GROUPS:
        for row in group.rows:
            found = [one for one in members[group.name] if one.row is row]
            lines.append(f"| {group.name} | `{row.pattern.text}` | {row.note} | {row.name}"
                         f" | {len(found)} | `{found[0].word:08x}` {found[0].mnemonic} |")
    counts = collections.Counter(classes)
    lines += [
        "",
        "## How the sample is made",
        "",
        f"{version} (package binutils-arm-none-eabi), called as",
        "",
        "    arm-none-eabi-objdump " + " ".join(OBJDUMP_OPTIONS) + " words.bin",
        "",
        "`-m armv5te` leaves out the media, exclusive, NOP-hint, MOVW and other instructions of"
        " later versions (`-m arm` names them), but not floating point, Advanced SIMD and"
        " load-acquire. A mnemonic that the manual does not hold means ILLEGAL"
        f" ({absent} words outside the groups, most of them Advanced SIMD under condition 1111,"
        " where the manual has no instruction); so does objdump's `<UNDEFINED>`, and `udf`. Raw"
        " register names tell BLX (1) from BLX (2). A note such as `<UNPREDICTABLE>` after the"
        " operands changes nothing.",
        "",
        "The words, in order: the examples; for each value of bits 27-20 and 7-4 under a"
        " condition, one word with the should-be bits right and one with all other bits drawn;"
        " the same under condition 1111, the second word only in the PLD and coprocessor"
        " spaces; more words in the multiply, swap, halfword and control spaces; LDRD and STRD"
        " of both parities in every form; both sides of the naming rules (PUSH and POP of a list"
        " and of one register, LSL, LSR, ASR, ROR, RRX, LSL #0); coprocessor numbers that objdump"
        " treats specially; words one bit"
        " away from a naming rule or with one should-be bit wrong; three words at least for each"
        " row above; and words until every conditional class has two"
        " well-formed ones under each of the fifteen conditions, and each class twenty that"
        " objdump names so. They are drawn with a fixed generator, so they are the same each"
        " time.",
        "",
        "Left out, since objdump's reading there follows tables of its own: FPA and Maverick"
        " operations and register transfers (coprocessors 1, 4, 5, 6), most VFP transfers to a"
        " register, coprocessor 15 loads and stores, and coprocessors 8 to 13 under condition"
        " 1111.",
        "",
        "To make it again: `python3 sample.py`. To compare the stored files with a new run, and"
        " every class with the diagrams of the manual in the script: `python3 sample.py"
        " --check`. Another version of objdump may print other names; then the script fails"
        " and says at which word.",
        "",
        "## Words of each class",
        "",
        ", ".join(f"{name} {counts[name]}" for name in CLASSES) + ".",
        "",
    ]
    return "\n".join(lines)


def main():
    parser = argparse.ArgumentParser(description=__doc__.splitlines()[0])
    parser.add_argument("--check", action="store_true",
                        help="compare with the stored files and the manual's diagrams")
    parser.add_argument("--objdump", default="arm-none-eabi-objdump")
    options = parser.parse_args()
    here = os.path.dirname(os.path.abspath(__file__))

    words = make_words()
    printed = disassemble(options.objdump, words)
    classes, members = classify(words, printed)
    check_rule(words, classes)
    check_cover(words, classes, members)
    version = objdump_version(options.objdump)
    files = {
        "../../crates/replay/stdin": as_bytes(words),
        "../../crates/replay/stdout": classes_text(words, classes).encode(),
        "GROUPS.md": groups_page(version, words, classes, printed, members).encode(),
    }
    if options.check:
        check_diagrams(words, classes)
        for name, content in files.items():
            with open(os.path.join(here, name), "rb") as file:
                if file.read() != content:
                    raise Failure(f"{name} is not what this run makes")
    else:
        for name, content in files.items():
            with open(os.path.join(here, name), "wb") as file:
                file.write(content)
    print(version)
    print(group_table(members, len(words)))
    print(class_table(classes))
    if options.check:
        print(f"{len(words)} words agree with the diagrams and with the stored files")


if __name__ == "__main__":
    try:
        main()
    except Failure as failure:
        sys.exit(f"sample.py: {failure}")
