"""Padded numbers: fresh sheets of kind 1 and 2, padded in every place, by the library and by the renderings.

    python3 padded.py [SHEETS] [--seed N] [--definitions] [--oracle PROGRAM]

A sheet of kind 1 is a plan of generate.py, in half of the cases with the damage of damage.py; one of kind 2 a drawn result. One of its numbers has groups of
zero put at its end, one up to as many as make ten groups, and the places follow one another, so that each of a sheet's numbers is met. Of these sheets some are
cut off behind a byte of the padded number, some have a group of zero inside a number instead, and some are left as they are. Compared are what `jenwyllt
keptlist` prints by the library, what reading alone answers and fills, and, where the library has it, what the reader of result sheets answers and fills. With
--definitions the definitions of kind 1, run from their own text, are asked in place of the library; with --oracle the reader beside the Rust too. Prints
the differences, and at the end how many sheets there were of each answer.
"""
import argparse
import random
from collections import Counter

import package  # noqa: F401
import compare
import damage
import generate
import results_reference
from plan import spice
from jenwyllt.unproved import sheet_bytes

INSIDE = 1 << 14                                 # 80 80 01: a group of zero inside
FILL = 9                                         # what a lent list holds
LONGEST = 10


# ---- sheets

def map_parts(r):
    """the numbers of a sheet of kind 1, as bytes each"""
    m = spice(r, generate.small_plan(r)).finished()
    m.pass_number = r.choice((1, 2, 3))
    if r.random() < 0.5:
        n = r.choice([n for n in damage.MAP_DAMAGE if n < 11])
        r.choice(damage.MAP_DAMAGE[n])(r, m)
    return [sheet_bytes.number_bytes(n) for n in damage.numbered(m)]


def result_parts(r):
    """the numbers of a sheet of kind 2; it keeps the rules in most cases"""
    started, labels = 0, []
    for _ in range(r.randrange(8)):
        label = r.randrange(started + 2) if r.random() < 0.95 else r.randrange(4)
        started = max(started, label)
        labels.append(label)
    most = r.choice((2, 300, 2 ** 64 - 1))
    tallies = [r.randint(0, most) for _ in range(2 * r.randrange(4))]
    pairs = sorted([r.randint(0, most) for _ in range(3)] for _ in range(r.randrange(4)))
    rows = sorted(([r.randint(0, most) for _ in range(5)] for _ in range(r.randrange(4))), key=lambda e: e[1:] + e[:1])
    lists = (labels, 1), (tallies, 2), ([n for e in pairs for n in e], 3), ([n for e in rows for n in e], 5)
    numbers = [2, started if r.random() < 0.9 else r.randrange(4)]
    for flat, size in lists:
        numbers += [len(flat) // size, *flat]
    return [results_reference.group_bytes(n) for n in numbers]


def changed(r, parts, k):
    """what was done at number k, and the bytes"""
    k %= len(parts)
    part, style = parts[k], r.choice(('padded',) * 7 + ('unfinished', 'inside', 'none'))
    if style == 'inside':
        part = sheet_bytes.number_bytes(INSIDE)
    elif style != 'none' and len(part) == LONGEST:   # there is no room to pad it
        style = 'none'
    elif style != 'none':
        part = damage.padded(part, r.randint(1, LONGEST - len(part)))
    data = b''.join(parts[:k]) + part
    if style == 'unfinished':
        return style, data[:len(data) - r.randint(1, len(part) - 1)]
    return style, data + b''.join(parts[k + 1:])


# ---- what is asked: what is printed; and number, place and lists at exit

class Library:
    def __init__(self):
        from jenwyllt import _library, results
        from jenwyllt.commands import _answers, keptlist
        from jenwyllt.sheet import READ_SHEET
        self.lib, self.answers, self.command, self.read_sheet = _library, _answers.PROVED, keptlist, READ_SHEET
        self.read_result = getattr(results, 'READ_RESULT', None)

    def keptlist(self, data):
        from jenwyllt.refusal import Refusal
        try:
            return self.command.answer(self.answers, data, False)[1].printed()
        except Refusal as refusal:
            return f'refused {refusal.number} at {refusal.place}\n'

    def ask(self, function, data, kinds):
        lists = [self.lib.lent(kind, [FILL] * len(data)) for kind in kinds]
        return function(self.lib.lent(self.lib.U8, data), *lists), [list(each) for each in lists]

    def read(self, data):
        said, lists = self.ask(self.read_sheet, data, (self.lib.U8,) + (self.lib.U64,) * 3)
        return (said.number, said.place), lists

    def result(self, data):
        said, lists = self.ask(self.read_result, data, (self.lib.U64,) * 4)
        return tuple(getattr(said, name) for name in ('number', 'place', 'regions', 'labels', 'spans', 'pairs', 'rows')), lists


class Definitions:
    read_result = None

    def __init__(self):
        self.d = compare.Definitions()
        self.keptlist = self.d.keptlist

    def read(self, data):
        return self.d.read(data, [len(data)] * 4)


def read_rendered(data):
    lists = [[FILL] * len(data) for _ in range(4)]
    return sheet_bytes.read_sheet(data, *lists)[0], lists


def result_rendered(data):
    said = results_reference.read(data)
    if said[0] == 'refused':
        return (*said[1:], 0, 0, 0, 0, 0), [[FILL] * len(data)] * 4
    regions, *lists = said[1]
    counts = (len(each) // size for each, size in zip(lists, (1, 2, 3, 5)))
    return (0, 0, regions, *counts), [each + [FILL] * (len(data) - len(each)) for each in lists]


# ---- the run

class Run:
    def __init__(self, asked, oracle):
        self.asked, self.oracle, self.counts, self.differences = asked, oracle, Counter(), 0

    def same(self, what, data, ours, theirs):
        if ours != theirs:
            self.differences += 1
            print('DIFFERS', what, data.hex(), ours, theirs)

    def sheet(self, style, data):
        printed = sheet_bytes.keptlist(data)
        self.counts['kind 1', style, ' '.join(printed.split()[:2]) if printed.startswith('refused') else 'kept'] += 1
        self.same('printed', data, self.asked.keptlist(data), printed)
        self.same('read', data, self.asked.read(data), read_rendered(data))
        if self.oracle:
            self.same('oracle', data, self.oracle.ask(data), printed)

    def result(self, style, data):
        expected = result_rendered(data)
        self.counts['kind 2', style, f'refused {expected[0][0]}' if expected[0][0] else 'read'] += 1
        self.same('result', data, self.asked.result(data), expected)


def main():
    parser = argparse.ArgumentParser(description=__doc__, formatter_class=argparse.RawDescriptionHelpFormatter)
    parser.add_argument('sheets', type=int, nargs='?', default=20_000)
    parser.add_argument('--seed', type=int, default=random.SystemRandom().randrange(2 ** 32))
    parser.add_argument('--definitions', action='store_true')
    parser.add_argument('--oracle')
    args = parser.parse_args()
    run = Run(Definitions() if args.definitions else Library(), compare.Oracle(args.oracle, 'kept') if args.oracle else None)
    r = random.Random(args.seed)
    for k in range(args.sheets):
        run.sheet(*changed(r, map_parts(r), k))
        if run.asked.read_result:
            run.result(*changed(r, result_parts(r), k))
    if run.oracle:
        run.oracle.close()
    kinds = 'each kind' if run.asked.read_result else 'kind 1 (what was asked has no reader of kind 2)'
    print(f'{args.sheets} sheets of {kinds}, seed {args.seed}')
    for what, count in sorted(run.counts.items()):
        print(f'{count:7} {", ".join(what)}')
    print(f'{run.differences} differences')
    raise SystemExit(run.differences > 0)


if __name__ == '__main__':
    main()
