"""Examples of documents 01 and 02 that the original cannot be asked, or not in a stored answer: lists with few places, calls out of turn, a state or
lists that a host made up, and the register of 11.

Each example has a request of version 3 and what the program must write. That text is written by hand from 01, or from 02 where that is
said; where the original can say a part of it, it comes from the original's answer to the same code and options, and the example says so:

    hand    every line is written by hand
    rust    the original's answer: what is added has no effect
    to A    the original's answer up to the step at A, and then lines written by hand
"""
import struct

from walk import (
    ADD, AL, BASE, EQ, HIGH, LOW, NOP, RETURN, TOP, Request, b, data, mov, pool, shifted, sub_pc, table_load,
)

# The parts of a state and the lists, as a request numbers them; the numbers in a row of each list.
ADDRESS, LAST_POOL, START = 1, 2, 3
LABELS, POOLS, JUMPS, INLINES, CALLS = 4, 5, 6, 7, 8
SOURCE = 9
IN_LABELS, IN_POOLS, IN_JUMPS, IN_INLINES, IN_CALLS = range(1, 6)
ROWS = {IN_LABELS: 1, IN_POOLS: 3, IN_JUMPS: 2, IN_INLINES: 2, IN_CALLS: 4}

# The lists' places, in rows: labels, pools, jump tables, inline tables, calls.
ALL = (1024, 1024, 64, 64, 1024)
ONE = (1, 1, 1, 1, 1)

C1 = [0xE59F0000, 0xE12FFF1E, 0x12345678]
C3 = [RETURN]
C8 = [0xE3500002, 0x908FF100, 0xEA000002, 0xEA000001, 0xEA000000, 0xEAFFFFFF, 0xE12FFF1E]
C9 = [0xE59FC000, 0xE12FFF1C, 0x00000000]


def turn(*parts, places=(), finish=False):
    """What comes before a step: at most two parts of the state and two places of a list get a value."""
    numbers = [int(finish)]
    for part in range(2):
        numbers += parts[part] if part < len(parts) else (0, 0)
    for place in range(2):
        numbers += places[place] if place < len(places) else (0, 0, 0)
    return struct.pack('>11I', *numbers)


STEP = turn()
FINISH = turn(finish=True)


class Example:
    """`more` numbers are lent of each list behind its places."""

    def __init__(self, name, words, text, made='hand', places=ALL, more=0, turns=(), starts=(), **options):
        self.name, self.text, self.made = name, text, made
        self.plain = Request(words, **options)
        self.places, self.more, self.turns, self.starts = places, more, turns, starts

    def pack(self):
        body = b'\3' + struct.pack('>5IB', *self.plain.numbers, self.plain.check)
        body += struct.pack(f'>{len(self.starts) + 1}I', len(self.starts), *self.starts)
        body += struct.pack('>7I', *self.places, self.more, len(self.turns)) + b''.join(self.turns) + self.plain.code
        return struct.pack('>I', len(body)) + body

    def expected(self, rust):
        """`rust` is the original's answer to the same code and options, with the lists after each step."""
        if self.made == 'hand':
            return self.text
        if self.made == 'rust':
            return rust + self.text
        address = self.made.removeprefix('to ')
        at, kept = f'{self.plain.numbers[3]:08x}', []
        for line in rust.splitlines(keepends=True):
            if line.startswith(('step', 'function', 'refused')) and at == address:
                return ''.join(kept) + self.text
            if line.startswith('step'):
                at = line.split()[2]
            kept.append(line)
        raise ValueError(self.name)


def at_begin(number):
    """A refused begin leaves the lists as they were lent, with one place each that holds 7; a step checks anew, and a finish does not."""
    lists = 'label 00000007\npool 00000007 00000007 other\njump 00000007 00000007\ninline 00000007 00000007\ncall 00000007 00000007 00000007 thumb\n'
    return f'refused {number} 00000000\n{lists}' * 2 + 'finish refused 15 00000000\n'


def begins():
    def refused(number, name, words, **rest):
        return Example(f'{number}: {name}', words, at_begin(number), places=ONE, **rest)

    yield refused(1, 'base 01ff7ffc', C3, base=0x01FF7FFC)
    yield refused(1, 'base 03000004', [], base=0x03000004)
    yield refused(1, "the code's end above 03000000", [RETURN, RETURN], base=HIGH - 4, module=(0, 4))
    yield refused(1, "the module's end above 03000000", C3, base=HIGH - 4, module=(0, 8))
    yield refused(1, "the module's start above its end", C3, module=(8, 4))
    yield Example('1: base 03000000 is in', [], 'refused 14 00000000\n', base=HIGH)
    yield Example('1: base 01ff8000 is in', C3, 'function 01ff8000 01ff8004 01ff8000 01ff8004 00\n', base=LOW)
    yield refused(2, 'start 02000008, 4 bytes', C3, start=8)
    yield refused(2, 'start below base', C3, start=-4)
    yield Example("2: a start at the code's end is in", C3, 'refused 14 00000000\n', start=4)
    yield refused(3, 'start 02000002, 4 bytes', C3, start=2)
    yield refused(4, 'starts 5, 5', C3, starts=(5, 5))
    yield refused(4, 'starts 8, 4', C3, starts=(8, 4))
    yield refused(1, 'before 2', C3, base=0x01FF7FFC, start=8)
    yield refused(2, 'before 3', C3, start=6)
    yield refused(3, 'before 4', C3, start=2, starts=(5, 5))


END_OF_C1 = 'function 02000000 0200000c 02000000 02000008 00\npool 02000008 12345678 other\n'
END_OF_C3 = 'function 02000000 02000004 02000000 02000004 00\n'


def calls_out_of_turn():
    first = 'step 02000000 02000004\npool 02000008 12345678 other\n'
    yield Example("15: after C1's first step", C1, first + 'finish refused 15 00000000\n' + END_OF_C1 * 2, turns=[STEP, FINISH])
    yield Example('15: before any step', C1, 'finish refused 15 00000000\n' + first + END_OF_C1, turns=[FINISH])
    yield Example('after an end that is accepted', C1, first + END_OF_C1 + 'finish ' + END_OF_C1.splitlines()[0] + '\n' + END_OF_C1 * 3,
                  turns=[STEP, STEP, FINISH, STEP])
    yield Example('after an end that is refused', [], 'refused 14 00000000\nfinish refused 14 00000000\n' + 'refused 14 00000000\n' * 3,
                  turns=[STEP, FINISH, STEP])
    # After the end nothing is checked: not the walk address, not the start, not the lists.
    yield Example('after the end, made up', C3, END_OF_C3 * 3 + (END_OF_C3 + 'place 00000001 00000000 00000009\n') * 2,
                  turns=[STEP, turn((ADDRESS, 0)), turn((START, 2), (LAST_POOL, 8)), turn(places=[(IN_LABELS, 0, 9)])])


def registers():
    yield Example('C12, check on', [0xE1A00004, RETURN], 'refused 11 02000000\nregister 04\n', check=1)
    yield Example('11: the lowest', [data(ADD, 0, 6, shifted(5)), RETURN], 'refused 11 02000000\nregister 05\n', check=1)
    # Document 02: STR r4, [SP, #-4]! is a push of r4, which a push defines; r2 and LR, in bits 15 to 0, are no part of its list.
    yield Example('a push of one register', [0xE52D4004, mov(0, shifted(4)), RETURN],
                  'step 02000000 02000004\nstep 02000004 02000008\nfunction 02000000 0200000c 02000000 0200000c 00\n', check=1)
    yield Example('11: after a push of another', [0xE52D4004, mov(0, shifted(5)), RETURN], 'step 02000000 02000004\nrefused 11 02000004\nregister 05\n', check=1)
    yield Example('11: a store below SP by a register is no push', [0xE72D4004, RETURN], 'refused 11 02000000\nregister 04\n', check=1)


def full_lists():
    full = lambda address: f'refused 13 {address:08x}\n'

    yield Example('C8 with no label place', C8, full(0x02000008), 'to 02000008', places=(0, 1024, 64, 64, 1024))
    yield Example('C8, its one label taken and then held', C8, '', 'rust', places=(1, 0, 1, 0, 0))

    two = [b(0, 2, EQ), b(1, 3, EQ), NOP, RETURN]
    yield Example('labels: the last place', two, '', 'rust', places=(2, 0, 0, 0, 0))
    yield Example('labels: one more', two, full(0x02000004), 'to 02000004', places=(1, 0, 0, 0, 0))

    two = [pool(0, 3), pool(1, 4), RETURN, 0x11111111, 0x22222222]
    yield Example('pools: the last place', two, '', 'rust', places=(0, 2, 0, 0, 0))
    yield Example('pools: one more', two, full(0x02000004), 'to 02000004', places=(0, 1, 0, 0, 0))
    yield Example('pools: one more, and two numbers of its row', two, full(0x02000004), 'to 02000004', places=(0, 1, 0, 0, 0), more=2)
    yield Example('pools: the last place, and two numbers left over', two, '', 'rust', places=(0, 2, 0, 0, 0), more=2)
    yield Example('pools: held', [pool(0, 3), pool(1, 3), RETURN, 0x11111111], '', 'rust', places=(0, 1, 0, 0, 0))
    yield Example('C9: a mark needs no place', C9, '', 'rust', places=(0, 1, 0, 0, 0))

    table = [0xE3500001, 0x908FF100]
    two = table + [b(2, 5), b(3, 5), b(4, 5)] + table + [b(7, 10), b(8, 10), b(9, 10), RETURN]
    yield Example('jump tables: the last place', two, '', 'rust', places=(2, 0, 2, 0, 0))
    yield Example('jump tables: one more', two, full(0x02000018), 'to 02000018', places=(2, 0, 1, 0, 0))
    yield Example('jump tables: one more, and a number of its row', two, full(0x02000018), 'to 02000018', places=(2, 0, 1, 0, 0), more=1)
    held, label = 'jump 0200000c 0000000c\n', 'label 02000018\n'
    text = f'step 02000000 02000004\njump 0200000c 00000004\nstep 02000004 02000008\n{held}'
    text += ''.join(f'step {a:08x} {a + 4:08x}\n{label}{held}' for a in range(0x02000008, 0x02000018, 4))
    text += f'function 02000000 0200001c 02000000 0200001c 00\n{label}{held}'
    yield Example('jump tables: held, made up', C8, text, places=(1, 0, 1, 0, 0),
                  turns=[turn((JUMPS, 1), places=[(IN_JUMPS, 0, 0x0200000C), (IN_JUMPS, 1, 4)])])

    two = [sub_pc(3, 0, 0x40), table_load(3), NOP, sub_pc(4, 12, 0x80), table_load(4), RETURN]
    yield Example('inline tables: the last place', two, '', 'rust', places=(0, 0, 0, 2, 0))
    yield Example('inline tables: one more', two, full(0x02000010), 'to 02000010', places=(0, 0, 0, 1, 0))
    yield Example('inline tables: one more, and a number of its row', two, full(0x02000010), 'to 02000010', places=(0, 0, 0, 1, 0), more=1)
    same = [sub_pc(3, 0, 0x40), table_load(3), NOP, sub_pc(4, 12, 0x40), table_load(4), RETURN]
    yield Example('inline tables: held', same, '', 'rust', places=(0, 0, 0, 1, 0))

    two = [b(0, 0x40, AL, 1), b(1, 0x41, AL, 1), RETURN]
    yield Example('calls: the last place', two, '', 'rust', places=(0, 0, 0, 0, 2))
    yield Example('calls: one more', two, full(0x02000004), 'to 02000004', places=(0, 0, 0, 0, 1))
    yield Example('calls: one more, and three numbers of its row', two, full(0x02000004), 'to 02000004', places=(0, 0, 0, 0, 1), more=3)
    one = 'call 02000000 eb00003e 02000100 arm\n'
    yield Example('calls: held, made up', [b(0, 0x40, AL, 1), RETURN],
                  f'step 02000000 02000004\n{one}function 02000000 02000008 02000000 02000008 00\n{one}', places=(0, 0, 0, 0, 1),
                  turns=[turn((CALLS, 1), places=[(IN_CALLS, 0, BASE), (IN_CALLS, 1, 5)])])

    # Which of two refusals comes first.
    yield Example('12 before 13', [0xE3500101, 0x908FF100], '', 'rust', places=(0, 0, 0, 0, 0))
    table = [sub_pc(4, 0, 0x40), table_load(4, rm=5), RETURN]
    yield Example('13 before 11', table, full(0x02000004), 'to 02000004', places=(0, 0, 0, 0, 0), check=1)
    yield Example('11 where there is a place', table, 'register 05\n', 'rust', places=(0, 0, 0, 1, 0), check=1)
    late = [NOP, b(1, -0x40)]
    yield Example('13 before 14', late, full(0x02000004), 'to 02000004', places=(0, 0, 0, 0, 0), module=(0, 4))
    yield Example('14 where there is a place', late, '', 'rust', places=(0, 0, 0, 0, 1), module=(0, 4))


NO_4 = 'refused 4 00000000\n'
EMPTY = ['label 00000000\n', 'pool 00000000 00000000 other\n', 'jump 00000000 00000000\n', 'inline 00000000 00000000\n',
         'call 00000000 00000000 00000000 arm\n']


def made_up():
    """Over C3: a refused step changes nothing, so that with the state as it was the walk goes on."""
    def refused(name, text, turns, **rest):
        return Example(name, C3, text + END_OF_C3 * 2, turns=turns, **rest)

    yield refused('2: a walk address below base', 'refused 2 00000000\n' * 2,
                  [turn((ADDRESS, BASE - 4)), turn((ADDRESS, 0)), turn((ADDRESS, BASE))])
    yield refused('2 and 3: a start made up', 'refused 3 00000000\nrefused 2 00000000\nrefused 2 00000000\n',
                  [turn((START, BASE + 2)), turn((START, BASE + 8)), turn((START, BASE - 4)), turn((START, BASE))])
    yield refused('4: a count above its list', ''.join(NO_4 + line for line in EMPTY),
                  [turn((LABELS + k, 2), (LABELS + k - 1, 0) if k else (0, 0)) for k in range(5)] + [turn((CALLS, 0))], places=ONE)
    first_row = [(rows, at) for rows, stride in ROWS.items() for at in range(stride)]
    yield refused('4: a nonzero place after the count', ''.join(f'{NO_4}place {rows:08x} {at:08x} 00000009\n' for rows, at in first_row),
                  [turn(places=[(*place, 9), (*before, 0)]) for place, before in zip(first_row, [(0, 0)] + first_row)]
                  + [turn(places=[(*first_row[-1], 0)])])
    yield refused('4: the last place', NO_4 + 'place 00000001 000003ff 00000009\n' + NO_4 + 'place 00000004 0000007f 00000009\n',
                  [turn(places=[(IN_LABELS, 1023, 9)]), turn(places=[(IN_LABELS, 1023, 0), (IN_INLINES, 127, 9)]),
                   turn(places=[(IN_INLINES, 127, 0)])])
    yield from left_over(refused)
    yield from out_of_order(refused)
    yield from pools_made_up(refused)
    yield refused("4: a register's pool that is not in the list", NO_4 * 2,
                  [turn((SOURCE, BASE)), turn((SOURCE, 0), (SOURCE + 15, BASE)), turn((SOURCE + 15, 0))])
    # NOP and the return: once the first has been walked, the sum is 4. Four bytes from the start to the address are enough for it, and none are not.
    end = 'function 02000000 02000008 02000000 02000008 00\n'
    yield Example("4: a sum above the walk's address less the start", [NOP, RETURN], 'step 02000000 02000004\n' + NO_4 * 2 + end * 2,
                  turns=[STEP, turn((START, BASE + 4)), turn((START, BASE), (ADDRESS, BASE)), turn((ADDRESS, BASE + 4))])
    left = 'place 00000001 00000000 00000009\n'
    yield refused('2 before 3 and 4, 3 before 4', f'refused 2 00000000\n{left}refused 2 00000000\n{left}refused 3 00000000\n{left}',
                  [turn((ADDRESS, 0), places=[(IN_LABELS, 0, 9)]), turn((START, BASE + 2)), turn((ADDRESS, BASE)),
                   turn((START, BASE), places=[(IN_LABELS, 0, 0)])])
    yield from ends_made_up()


def left_over(refused):
    """Numbers behind the last whole row: they hold zero, as every place after the count."""
    last = [(rows, stride) for rows, stride in ROWS.items() if rows != IN_LABELS]
    yield refused('4: a nonzero place behind the last row', ''.join(f'{NO_4}place {rows:08x} {at:08x} 00000009\n' for rows, at in last),
                  [turn(places=[(*place, 9), (*before, 0)]) for place, before in zip(last, [(0, 0)] + last)] + [turn(places=[(*last[-1], 0)])],
                  places=ONE, more=1)
    yield refused('4: a count above its list, with two numbers of the next row', NO_4 + EMPTY[1] + NO_4 + EMPTY[4],
                  [turn((POOLS, 2)), turn((POOLS, 0), (CALLS, 2)), turn((CALLS, 0))], places=ONE, more=2)


def out_of_order(refused):
    for part, rows, first, second, form in (
            (LABELS, IN_LABELS, 8, 8, 'label {:08x}\n'), (LABELS, IN_LABELS, 8, 4, 'label {:08x}\n'),
            (JUMPS, IN_JUMPS, 8, 4, 'jump {:08x} 00000000\n'), (INLINES, IN_INLINES, 8, 8, 'inline {:08x} 00000000\n'),
            (CALLS, IN_CALLS, 8, 4, 'call {:08x} 00000000 00000000 arm\n')):
        one, two = (rows, 0), (rows, ROWS[rows])
        yield refused('4: entries not ascending', NO_4 + form.format(first) + form.format(second),
                      [turn((part, 2), places=[(*one, first), (*two, second)]), turn((part, 0), places=[(*one, 0), (*two, 0)])])
    one, two = (IN_POOLS, 0), (IN_POOLS, ROWS[IN_POOLS])
    yield refused('4: pools not ascending', NO_4 + 'pool 02000000 00000000 other\n' * 2,
                  [turn((POOLS, 2), (LAST_POOL, BASE), places=[(*one, BASE), (*two, BASE)]),
                   turn((POOLS, 0), (LAST_POOL, 0), places=[(*one, 0), (*two, 0)])])


def pools_made_up(refused):
    line = 'pool {:08x} 00000000 other\n'
    # A pool at the walk's address is passed, and then the code has run out.
    passed = 'step 02000000 02000004\n' + line.format(BASE) + 'refused 14 00000000\n'
    wrong = [BASE + 4, BASE + 1, BASE - 4]
    yield Example('4: a pool not wholly in the code', C3, ''.join(NO_4 + line.format(at) for at in wrong) + passed,
                  turns=[turn((POOLS, 1), (LAST_POOL, at), places=[(IN_POOLS, 0, at)]) for at in wrong + [BASE]])
    yield Example("4: a last pool other than the list's", C3, (NO_4 + line.format(BASE)) * 2 + passed,
                  turns=[turn((POOLS, 1), places=[(IN_POOLS, 0, BASE)]), turn((LAST_POOL, BASE + 4)), turn((LAST_POOL, BASE))])
    yield refused('4: a last pool and no pools', NO_4, [turn((LAST_POOL, BASE)), turn((LAST_POOL, 0))])


def ends_made_up():
    def inline(address, size):
        return [turn((INLINES, 1), places=[(IN_INLINES, 0, address), (IN_INLINES, 1, size)])]

    yield Example("12: an inline table's end leaves 32 bits, met at a skip", C3, 'refused 12 02000000\n' * 2, turns=inline(BASE, 0xFE000000))
    yield Example("12: an inline table's end that does not", C3, 'step 02000000 ffffffff\ninline 02000000 fdffffff\nrefused 14 00000000\n',
                  turns=inline(BASE, 0xFDFFFFFF))
    yield Example("12: an inline table's end that is not met", C3, (END_OF_C3 + 'inline 02000100 ffffffff\n') * 2, turns=inline(BASE + 0x100, TOP))


def readings():
    far = [0xE59F0FFF, RETURN] + [0] * 0x3FF + [0x12345678]
    yield Example("the address is masked after the sum; an end at the module's end", far, '', 'rust')


def examples():
    for group in (begins, calls_out_of_turn, registers, full_lists, made_up, readings):
        yield from group()
