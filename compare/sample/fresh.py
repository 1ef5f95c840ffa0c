#!/usr/bin/env python3
"""Compares fresh requests with the original, call by call: the answer, every list after each step, the register of 11, and the tag.

Usage: fresh.py WALK CRATES COUNT SEED

WALK is the path of the built oracle, CRATES the folder of this repository's crates, where tools/build has built `walks`, `listings`, `listfn`, `tags`
and `tagfn`.
Of the requests three in ten are rich functions (rich.py), about as many are planned or rich ones with words and options changed, and the others
are code and options at random. Each runs in `walks` with as many places as the lists can have, and once more with few and some numbers left over
behind them; what a list without room must answer, 13, is worked out from the original's own lists. Each that has no existing starts, which the
listing program does not know, goes through `listings` too, and the first ten of each batch through `listfn`: they must print the end of the
original's listing. `tags` must print the tag of each request as the oracle works it out from the original's steps, and `tagfn` that of the first ten:
without the existing starts, which these do not know either. Prints how many agreed and the first that did not, and fails if any did not.
"""
import collections
import copy
import pathlib
import random
import re
import struct
import subprocess
import sys

import walk
from examples import ROWS
from rich import rich

BATCH = 2000
LISTFN = 10
MOST = (1024, 1024, 64, 64, 1024)
KINDS = ('label', 'pool', 'jump', 'inline', 'call')


def room(places, more):
    """The rows of each list that fit, where it is lent so many numbers more."""
    return tuple(min(most, rows + more // stride) for most, rows, stride in zip(MOST, places, ROWS.values()))


def with_places(request, places, more):
    """A request of version 3, without planned turns."""
    body = b'\3' + struct.pack('>5IB', *request.numbers, request.check)
    body += struct.pack(f'>{len(request.existing) + 1}I', len(request.existing), *request.existing)
    body += struct.pack('>7I', *places, more, 0) + request.code
    return struct.pack('>I', len(body)) + body


def fresh():
    kind = random.random()
    if kind < .2:
        return walk.changed(random.choice(walk.PLANNED))
    if kind < .35:
        return walk.changed(rich())
    return rich() if kind < .65 else walk.at_random()


def listings(program, data, *options):
    run = subprocess.run([program, *options], input=data, capture_output=True, check=True)
    return [text.strip('\n') for text in run.stdout.decode().split('\n\n')]


def original(program, requests):
    """The original's listings, as `walks` writes them for version 3."""
    texts = listings(program, b''.join(request.pack() for request in requests), 'steps', 'errors')
    for pattern, text in ((r'^error .*\n?', ''), (r'^panic (\d+ \w{8}) .*', r'refused \1'), (r'^register (\d)$', r'register 0\1')):
        texts = [re.sub(pattern, text, listing, flags=re.M).strip('\n') for listing in texts]
    return texts


def with_few(listing, start, places):
    """The listing where the lists have so many places, or None where the original's does not tell: a step that ends in 11 or 14 may have
    inserted something."""
    blocks = []
    for line in listing.splitlines():
        if line.startswith(('step', 'function', 'refused', 'register')):
            blocks.append([])
        blocks[-1].append(line)
    lines, at = [], start
    for block in blocks:
        words = block[0].split()
        if words[0] == 'step':
            at = int(words[1], 16)
        counts = [sum(line.startswith(kind + ' ') for line in block[1:]) for kind in KINDS]
        if words[0] in ('step', 'function') and any(count > most for count, most in zip(counts, places)):
            return '\n'.join(lines + [f'refused 13 {at:08x}'])
        if words[0] == 'refused' and words[1] in ('11', '14'):
            return None
        lines += block
        if words[0] == 'step':
            at = int(words[2], 16)
    return '\n'.join(lines)


def built(crates, name):
    """Where tools/build leaves a program."""
    return crates / name / 'out' / name


def by_many(crates, many, one, inputs, begins):
    """What a program prints for each input of another one, where each text begins with one of these words; the other must print the same for the
    first inputs."""
    framed = b''.join(struct.pack('>I', len(data)) + data for data in inputs)
    said = subprocess.run([built(crates, many)], input=framed, capture_output=True, check=True).stdout.decode()
    texts = [text.strip('\n') for text in re.split(rf'^(?={begins})', said, flags=re.M)[1:]]
    assert len(texts) == len(inputs)
    for data, text in list(zip(inputs, texts))[:LISTFN]:
        alone = listings(built(crates, one), data)
        if alone != [text]:
            sys.exit(f'{one}, request {data.hex()}\n{many}:\n{text}\n{one}:\n{alone}')
    return texts


def listed(crates, requests):
    """What the listing program prints for each request, or None for one with existing starts."""
    inputs = [request.pack() for request in requests if not request.existing]
    left = iter(by_many(crates, 'listings', 'listfn', inputs, 'function |refused '))
    return [None if request.existing else next(left) for request in requests]


def without_starts(request):
    bare = copy.copy(request)
    bare.existing = []
    return bare


def tagged(oracle, crates, requests):
    """Each request without its existing starts, and its tag: the oracle's, from the original's steps, and what the tag program prints."""
    bare = [without_starts(request) for request in requests]
    inputs = [request.pack() for request in bare]
    expected = [re.sub(r'^panic (\d+ \w{8}) .*', r'refused \1', tag) for tag in listings(oracle, b''.join(inputs), 'tag')]
    assert len(expected) == len(inputs)
    return zip(bare, expected, by_many(crates, 'tags', 'tagfn', inputs, 'tag |refused '))


def end_of(listing):
    """The record and its lists, or the refusal."""
    lines = [line for line in listing.splitlines() if not line.startswith('register')]
    return '\n'.join(lines[max(i for i, line in enumerate(lines) if line.startswith(('function', 'refused'))):])


class Tally:
    """Of the requests: the ends of those compared, how many had rich lists, how many were entered and left by one register, and how many did not
    agree, with all places or with few."""

    def __init__(self):
        self.ends, self.few, self.tags = collections.Counter(), collections.Counter(), collections.Counter()
        self.rich = self.by_one = self.listed = self.left_out = self.different = 0
        self.tags_different = 0

    def agree(self, name, expected, given, request, places):
        if expected != given and not self.different and not self.tags_different:
            print(f'{name}, places {places}, request {request.pack().hex()}\nthe original:\n{expected}\nhere:\n{given}')
        return expected == given

    def add(self, request, expected, given, few, places, listing):
        if expected.startswith('outside') or not walk.comparable(request, expected):
            self.left_out += 1
            return
        end, is_rich = walk.outcome(expected)
        self.ends[end] += 1
        self.rich += is_rich
        self.by_one += walk.by_one(request, expected)
        same = self.agree('all places', expected, given, request, MOST)
        wanted = with_few(expected, request.numbers[3], places)
        if wanted is None:
            self.few['not told'] += 1
        else:
            self.few['13' if wanted.splitlines()[-1].startswith('refused 13') else 'not 13'] += 1
            same &= self.agree('few places', wanted, few, request, places)
        if listing is not None:
            self.listed += 1
            same &= self.agree('listings', end_of(expected), listing, request, MOST)
        self.different += not same

    def add_tag(self, request, expected, given):
        if expected.startswith('outside') or not walk.comparable(request, expected):
            self.tags['left out'] += 1
            return
        word, *numbers = expected.split()
        if word == 'refused':
            self.tags['17' if numbers[0] == '17' else 'refused walks'] += 1
        else:
            share = tuple(map(int, numbers))
            self.tags['above 100' if share > (100, 0) else '100' if share == (100, 0) else 'below 100'] += 1
        self.tags_different += not self.agree('tags', expected, given, request, MOST)


def main():
    oracle, crates, count, seed = sys.argv[1], pathlib.Path(sys.argv[2]), int(sys.argv[3]), int(sys.argv[4])
    tally = Tally()
    random.seed(seed)
    for first in range(0, count, BATCH):
        requests = [fresh() for _ in range(min(BATCH, count - first))]
        places = [tuple(random.choice((0, 1, 2, 3, 5, 64)) for _ in KINDS) for _ in requests]
        more = [random.choice((0, 0, 1, 2, 3)) for _ in requests]
        expected = original(oracle, requests)
        given = listings(built(crates, 'walks'), b''.join(with_places(request, MOST, 0) for request in requests))
        few = listings(built(crates, 'walks'), b''.join(with_places(*parts) for parts in zip(requests, places, more)))
        assert len(expected) == len(given) == len(few) == len(requests)
        for parts in zip(requests, expected, given, few, map(room, places, more), listed(crates, requests)):
            tally.add(*parts)
        for parts in tagged(oracle, crates, requests):
            tally.add_tag(*parts)
    compared = sum(tally.ends.values())
    print(f'{compared - tally.different} agreed, {tally.different} did not, {tally.left_out} left out')
    print('ends:', dict(sorted(tally.ends.items(), key=str)), f'{tally.rich} accepted with rich lists, {tally.by_one} entered and left by one register')
    print('with few places:', dict(sorted(tally.few.items())), f'listed: {tally.listed}')
    tags = sum(tally.tags.values()) - tally.tags['left out']
    print(f'tags: {tags - tally.tags_different} agreed, {tally.tags_different} did not:', dict(sorted(tally.tags.items())))
    sys.exit(tally.different + tally.tags_different > 0)


if __name__ == '__main__':
    main()
