"""The library's reader and writer of result sheets against results_reference.py, on fresh damaged sheets.

    python3 results.py [SHEETS] [--seed N]

Sheets are of results that drawn maps give, and of any numbers of 64 bits, with rules broken alone and together, wrong counts and damaged bytes
(results_sheets.py). Each is read with lists that have just room, one number less, none or more; what is read is written again, with just room and one byte
less. Every lent entry at exit is compared. Prints the differences, and at the end how many sheets there were of each answer and kind of damage.
"""
import argparse
import random
import sys
from collections import Counter

import package  # noqa: F401
from jenwyllt._library import U8, U64, lent
from jenwyllt.results import READ_RESULT, WRITE_RESULT
from results_reference import read, write
from results_sheets import SIZES, sheets


def rooms(draw, said):
    """lengths of the four lists: as needed, but for one of them in some"""
    needed = [len(each) for each in said[1][1:]] if said[0] == 'read' else [draw.choice((0, 3, 40)) for _ in SIZES]
    if draw.random() < 0.4:
        at = draw.randrange(4)
        needed[at] = draw.choice((max(needed[at] - 1, 0), 0, needed[at] + 1, needed[at] + 9))
    return needed


def read_here(data, before):
    """what the library answers, and the lists at exit"""
    lists = [lent(U64, each) for each in before]
    answer = READ_RESULT(lent(U8, data), *lists)
    header = (answer.regions, answer.labels, answer.spans, answer.pairs, answer.rows)
    return (answer.number, answer.place, header if answer.number == 0 else None), [each[:] for each in lists]


def read_expected(said, before):
    if said[0] == 'refused':
        return (*said[1:], None), before
    regions, *lists = said[1]
    if any(len(each) > len(room) for each, room in zip(lists, before)):
        return (10, 0, None), before
    counts = (len(each) // size for each, size in zip(lists, SIZES))
    return (0, 0, (regions, *counts)), [each + room[len(each):] for each, room in zip(lists, before)]


def write_here(of, before):
    out = lent(U8, before)
    answer = WRITE_RESULT(of[0], *(lent(U64, each) for each in of[1:]), out)
    return answer.number, answer.value, bytes(out)


def write_expected(of, before):
    said = write(*of, len(before))
    return (*said[1:], before) if said[0] == 'refused' else (0, len(said[1]), said[1] + before[len(said[1]):])


def main():
    parser = argparse.ArgumentParser(description=__doc__, formatter_class=argparse.RawDescriptionHelpFormatter)
    parser.add_argument('sheets', type=int, nargs='?', default=10_000)
    parser.add_argument('--seed', type=int, default=random.SystemRandom().randrange(2 ** 32))
    args = parser.parse_args()
    draw, answers, kinds, differences, written = random.Random(args.seed), Counter(), Counter(), 0, 0
    for what, data in sheets(args.sheets, args.seed):
        said = read(data)
        before = [[draw.randrange(2 ** 64) for _ in range(room)] for room in rooms(draw, said)]
        here, expected = read_here(data, before), read_expected(said, before)
        answers[expected[0][0]] += 1
        kinds.update(what.split('+'))
        if here != expected:
            differences += 1
            print('DIFFERS', what, data.hex(), [len(each) for each in before], here[0], expected[0])
        if said[0] == 'read':
            size = len(write(*said[1], 2 ** 30)[1])
            for room in (size, size - 1):
                written += 1
                behind = bytes(draw.randrange(256) for _ in range(room))
                if write_here(said[1], behind) != write_expected(said[1], behind):
                    differences += 1
                    print('DIFFERS, written', what, data.hex(), room)
    print(f'{args.sheets} sheets, seed {args.seed}:', ', '.join(f'{count} of number {number}' for number, count in sorted(answers.items())))
    print('  ' + ', '.join(f'{what} {count}' for what, count in sorted(kinds.items())))
    print(f'{written} written, {differences} differences')
    return 1 if differences else 0


if __name__ == '__main__':
    sys.exit(main())
