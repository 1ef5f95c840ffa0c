"""Functions at random as a compiler lays them out, so that a walk over one finds much: an entry, blocks with labels, calls, pool loads, jump
tables and inline tables, one inside another, pools between blocks or behind the return, and another function after it. A quarter of them save
LR by STR LR, [SP, #-4]! and return by LDR PC, [SP], #4; others do one of the two, or save other registers so."""
import random

from walk import (
    ADD, AL, BASE, CMP, EOR, EQ, GE, GT, HI, HIGH, LE, LOW, LR, LS, LT, MI, NE, PC, RETURN, SP, STEP, SUB, Request,
    b, block, branch, bx, compare, data, imm, jump, mov, pool, pop, pop_one, push, push_one, shifted, table_load, transfer,
)

CONDITIONS = (EQ, NE, GE, GT, LS, HI, LT, MI, LE)
SCRATCH = (0, 1, 2, 3)
TABLE_WORDS = 64


class Draft:
    """Words in order. One that names another place is a function of its own, which is asked once all places are known."""

    def __init__(self):
        self.words, self.places, self.waiting = [], [], []

    def put(self, *words):
        self.words += words

    def label(self):
        """A place that is not known yet."""
        self.places.append(None)
        return len(self.places) - 1

    def set(self, label):
        self.places[label] = len(self.words)

    def go(self, label, cond=AL, link=0):
        self.put(lambda at: b(at, self.places[label], cond, link))

    def load(self, rd, label=None, cond=AL):
        """Of a pool word that waits for its place, or of one that is named already."""
        if label is None:
            label = self.label()
            self.waiting.append(label)
        self.put(lambda at: pool(at, self.places[label], rd, cond))
        return label

    def drop_pools(self):
        for label in self.waiting:
            self.set(label)
            self.put(random.choice([random.getrandbits(32), BASE + 4 * random.getrandbits(12), RETURN, push(0x4010), push_one(LR)]))
        self.waiting = []

    def finished(self):
        return [word(at) if callable(word) else word for at, word in enumerate(self.words)]


# ---- blocks, each with what may stand inside it

def plain(draft, depth):
    reg = lambda: random.choice(SCRATCH)
    for _ in range(random.choice((1, 1, 2))):
        draft.put(random.choice([
            data(random.choice([ADD, SUB, EOR]), reg(), reg(), random.choice([imm(random.randrange(9)), shifted(reg())])),
            mov(reg(), imm(random.randrange(9))), mov(reg(), shifted(reg())), mov(reg(), shifted(reg(), 0, 2)),
            transfer(random.randrange(2), reg(), random.choice([SP, 4, 0]), 4 * random.randrange(4)), compare(CMP, reg(), imm(3)), STEP,
            random.choice([push_one, pop_one])(random.choice([0, 3, 4, 9]), random.choice([AL, AL, NE]))]))


def load(draft, depth):
    label = draft.load(random.choice(SCRATCH), cond=random.choice((AL, AL, AL, NE)))
    if random.random() < .2:
        draft.load(random.choice((0, 1, 12)), label)


def call(draft, depth):
    draft.put(random.choice([branch(random.randrange(-0x1000, 0x1000), random.choice((AL, AL, AL, EQ)), 1),
                             0xFA000000 | random.randrange(0x1000) | random.getrandbits(1) << 24]))


def call_by_register(draft, depth):
    """BX inside a block marks the pool word; BLX does not."""
    over = draft.label()
    draft.go(over, random.choice(CONDITIONS))
    draft.load(12)
    draft.put(*random.choice([[bx(12)], [mov(LR, shifted(PC)), bx(12)], [0xE12FFF3C]]))
    draft.set(over)


def skip(draft, depth):
    over = draft.label()
    draft.put(compare(CMP, random.choice(SCRATCH), imm(random.randrange(4))))
    draft.go(over, random.choice(CONDITIONS))
    blocks(draft, depth + 1, (1, 2))
    if random.random() < .25:
        draft.put(random.choice([RETURN, pop(0x8010), bx(LR, NE), pop(0x8010, EQ), pop_one(PC), pop_one(PC, EQ)]))
    draft.set(over)


def either(draft, depth):
    other, end = draft.label(), draft.label()
    draft.put(compare(CMP, random.choice(SCRATCH), imm(0)))
    draft.go(other, random.choice(CONDITIONS))
    blocks(draft, depth + 1, (1,))
    draft.go(end)
    if random.random() < .3:
        draft.drop_pools()
    draft.set(other)
    blocks(draft, depth + 1, (1,))
    draft.set(end)


def loop(draft, depth):
    top = draft.label()
    draft.set(top)
    blocks(draft, depth + 1, (1, 2))
    draft.put(data(SUB, 1, 1, imm(1), s=1))
    draft.go(top, random.choice((NE, GT)))


def switch(draft, depth):
    """A compare, a jump into a table of branches, and a block for each; some cases share one."""
    limit, end = random.randrange(1, 4), draft.label()
    cases = [draft.label() for _ in range(random.randrange(1, limit + 2))]
    draft.put(compare(CMP, 0, imm(limit)))
    way = random.random()
    if way < .3:
        draft.go(end, GT)
        draft.put(compare(CMP, 0, imm(0)), jump(0, GE))
    elif way < .5:
        draft.put(random.choice([pop(0x8010, HI), pop_one(PC, HI)]), jump(0, AL))
    else:
        draft.put(jump(0, LS))
    draft.go(end)
    for i in range(limit + 1):
        draft.go(cases[min(i, len(cases) - 1)])
    for case in cases:
        draft.set(case)
        plain(draft, depth + 1)
        if case != cases[-1]:
            draft.go(end)
    draft.set(end)


def inline(draft, depth):
    """A table of 256 bytes: in the way, where the walk passes over it, or elsewhere."""
    in_the_way = depth == 0 and random.random() < .3
    distance = 0x108 - (12 if in_the_way else random.randrange(0x20, 0x41) * 4)
    draft.put(data(SUB, 3, PC, imm(distance)), table_load(3))
    plain(draft, depth + 1) if not in_the_way else draft.put(STEP, *[random.getrandbits(32)] * TABLE_WORDS)


def pools_between(draft, depth):
    over = draft.label()
    draft.load(random.choice(SCRATCH))
    draft.go(over)
    draft.drop_pools()
    draft.set(over)


BLOCKS = ((plain, 4), (load, 6), (call, 4), (call_by_register, 2), (skip, 4), (either, 2), (loop, 2), (switch, 2), (inline, 1), (pools_between, 2))


def blocks(draft, depth, counts):
    flat = depth > 1
    kinds = [(kind, weight) for kind, weight in BLOCKS if not flat or kind in (plain, load, call)]
    for _ in range(random.choice(counts)):
        random.choices([kind for kind, _ in kinds], [weight for _, weight in kinds])[0](draft, depth)


# How LR is saved and how the function returns: by one register both times, and by one register once or with others.
BY_ONE = (
    ([push_one(LR)], [pop_one(PC)]), ([push_one(LR), data(SUB, SP, SP, imm(4))], [data(ADD, SP, SP, imm(4)), pop_one(PC)]),
    ([push_one(LR), push_one(4)], [pop_one(4), pop_one(PC)]), ([push_one(LR), push(0x30)], [pop(0x30), pop_one(PC)]),
)
MIXED = (
    ([push_one(LR)], [pop(0x8000)]), ([push_one(LR)], [pop_one(LR), RETURN]), ([push(0x4000)], [pop_one(PC)]), ([push(0x4010)], [pop_one(4), pop_one(PC)]),
    ([push_one(4), push_one(LR)], [pop(0x4010), RETURN]), ([push_one(5), push(0x4010)], [pop_one(PC, NE), pop(0x8010)]),
    ([push_one(LR, NE)], [pop_one(PC, NE), RETURN]),
)


def end(draft):
    kind = random.random()
    if kind < .15:
        draft.load(12)
        draft.put(bx(12))
    elif kind < .22:
        draft.put(mov(12, shifted(SP)), branch(random.randrange(0x40, 0x1000)))
    elif kind < .3:
        # Gone to another function under a condition, and the next one's entry right behind.
        draft.put(branch(random.randrange(4, 0x30), random.choice(CONDITIONS)), random.choice([push(0x4010), push_one(LR)]), STEP, RETURN)
    else:
        draft.put(random.choice([RETURN, RETURN, pop(0x8010), pop(0x8070), mov(PC, shifted(LR)), pop_one(PC), block(1, SP, 0x8010, 1, 0, 1)]))


def entered(by_one):
    """The words of an entry, and those of the return or None."""
    if by_one:
        return random.choice(BY_ONE)
    if random.random() < .16:
        return random.choice(MIXED)
    return random.choice([[push(0x4010)], [push(0x4070)], [push(0x4010), data(SUB, SP, SP, imm(8))], [block(0, SP, 0x4000, 2, 0, 1)], []]), None


# What stands behind a function.
FOLLOWING = ([push(0x4010), STEP, RETURN], [push_one(LR), STEP, pop_one(PC)], [RETURN], [STEP], [])


def rich(by_one=None):
    """A function with options that mostly let it be accepted; whether it is one of BY_ONE is left to chance unless said."""
    draft = Draft()
    before = [draft.label() for _ in range(random.choice((0, 0, 0, 1, 2)))]
    for label in before:
        draft.set(label)
        draft.put(random.getrandbits(32))
    start = 4 * len(draft.words)
    entry, back = entered(random.random() < .25 if by_one is None else by_one)
    draft.put(*entry)
    for label in before:
        draft.load(random.choice(SCRATCH), label)
    blocks(draft, 0, (2, 3, 3, 4))
    # Now and then what stands behind it is called and comes before the pools: a long branch goes there, unless it is an entry.
    is_called, following = random.random() < .1, draft.label()
    if is_called:
        draft.go(following, AL, 1)
    draft.put(*back) if back else end(draft)
    if not is_called:
        draft.drop_pools()
    draft.set(following)
    draft.put(*random.choice(FOLLOWING[:3] if is_called else FOLLOWING))
    draft.drop_pools()
    words = draft.finished()
    size = 4 * len(words)
    module = random.choice([None, None, None, (0, size + 0x100), (start, size), (0, size - 4 * random.randrange(3))])
    known = random.choice([None] * 9 + [size])
    existing = [4 * random.randrange(len(words) + 8) for _ in range(random.choice((0, 0, 0, 3)))]
    return Request(words, random.choice([BASE, BASE, LOW, HIGH - size - 0x100, BASE + 0x1000]), module, start, known, random.choice((0, 0, 1)), existing)
