"""Sheets of kinds 1 and 3: fresh maps, written, read, converted and printed by the library and by the rendering.

    python3 kinds.py [SHEETS] [--seed N]

A map is a plan of generate.py, in half of the cases with the damage of damage.py. Its spans are the endpoints of its boundaries, or one of them is turned round, moved,
left out or added. It stands as a sheet of kind 1 or 3; of these some are cut off, have a byte changed or added, or another kind. Compared are what reading alone answers
and fills, what converting answers and writes into a list that is long enough, exactly so, too short or empty, what writing the map as kind 3 answers and writes, and
what `keptlist` prints for the sheet and for its conversion. Prints the differences, and at the end how many sheets there were of each answer.
"""
import argparse
import random
from collections import Counter

import package  # noqa: F401
import damage
import generate
from plan import spice
from padded import FILL, Library
from jenwyllt._library import U8, U64, lent
from jenwyllt.new_sheet import CONVERT_SHEET, WRITE_SHEET
from jenwyllt.unproved import sheet_bytes


# ---- sheets

def drawn_map(r):
    m = spice(r, generate.small_plan(r)).finished()
    m.pass_number = r.choice((1, 2, 3))
    m.spans = sheet_bytes.endpoints_of(m.boundaries)
    if r.random() < 0.5:
        n = r.choice([n for n in damage.MAP_DAMAGE if n < 11])
        r.choice(damage.MAP_DAMAGE[n])(r, m)
    way = r.randrange(8)
    if way == 0:
        m.spans = m.spans[:-4]
    elif way == 1:
        m.spans = m.spans + [0, 0, 8, 8]
    elif m.spans and way in (2, 3):
        k = 4 * r.randrange(len(m.spans) // 4)
        four = m.spans[k:k + 4]
        m.spans[k:k + 4] = four[2:] + four[:2] if way == 2 else [four[0] ^ 1, *four[1:]]
    return m


def changed(r, data):
    data, way = bytearray(data), r.randrange(10)
    if way == 0:
        del data[r.randrange(len(data)):]
    elif way == 1:
        data[r.randrange(len(data))] = r.randrange(256)
    elif way == 2:
        data.insert(r.randrange(len(data) + 1), r.randrange(256))
    elif way == 3:
        data[0] = r.choice((0, 1, 2, 3, 4, 129, 131))
    return bytes(data)


# ---- the library

def written(function, *arguments, room):
    out = lent(U8, bytes([FILL]) * room)
    answer = function(*arguments, out)
    return (answer.number, answer.value), bytes(out)


# ---- the run

class Run:
    def __init__(self):
        self.asked, self.counts, self.differences = Library(), Counter(), 0

    def same(self, what, data, ours, theirs):
        if ours != theirs:
            self.differences += 1
            print('DIFFERS', what, data.hex(), ours, theirs)

    def sheet(self, r, m):
        kind = r.choice((1, 1, 3))
        data = changed(r, sheet_bytes.sheet_of(m, kind))
        lists = [[FILL] * len(data) for _ in range(4)]
        answer = sheet_bytes.read_sheet(data, *lists)[0]
        self.same('read', data, self.asked.read(data), (answer, lists))
        self.counts['read', answer[0]] += 1
        whole = sheet_bytes.convert_sheet(data, len(data))[1]
        for room in {0, len(data), len(whole or b''), max(0, len(whole or b'') - 1)}:
            answer, made = sheet_bytes.convert_sheet(data, room)
            self.same('convert', data, written(CONVERT_SHEET, lent(U8, data), room=room), (answer, filled(made, room)))
        self.counts['convert', sheet_bytes.convert_sheet(data, len(data))[0][0]] += 1
        expected = sheet_bytes.keptlist(data)
        self.same('printed', data, self.asked.keptlist(data), expected)
        if whole is not None:
            self.same('printed of the conversion', data, self.asked.keptlist(whole), expected)

    def map(self, m, room):
        lists = lent(U8, bytes(m.cells)), lent(U64, m.boundaries), lent(U64, m.anchors)
        ours = written(WRITE_SHEET, m.pass_number, m.width, m.height, *lists, room=room)
        answer, made = sheet_bytes.write_sheet(m.pass_number, m.width, m.height, m.cells, m.boundaries, m.anchors, room)
        self.same('write', made or b'', ours, (answer, filled(made, room)))
        self.counts['write', answer[0]] += 1


def filled(made, room):
    made = made or b''
    return made + bytes([FILL]) * (room - len(made))


def main():
    parser = argparse.ArgumentParser(description=__doc__, formatter_class=argparse.RawDescriptionHelpFormatter)
    parser.add_argument('sheets', type=int, nargs='?', default=20_000)
    parser.add_argument('--seed', type=int, default=random.SystemRandom().randrange(2 ** 32))
    args = parser.parse_args()
    run, r = Run(), random.Random(args.seed)
    for _ in range(args.sheets):
        m = drawn_map(r)
        run.sheet(r, m)
        run.map(m, r.choice((0, 100, 4_000, 40_000)))
    print(f'{args.sheets} sheets, seed {args.seed}')
    for (what, number), count in sorted(run.counts.items()):
        print(f'{count:7} {what}: {number or "accepted"}')
    print(f'{run.differences} differences')
    raise SystemExit(run.differences > 0)


if __name__ == '__main__':
    main()
