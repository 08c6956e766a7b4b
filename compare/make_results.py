"""Makes vectors/results.txt from the rendering in results_reference.py; vectors/README.md has the format.

    python3 make_results.py [FILE]
"""
import argparse
import itertools
import random
from pathlib import Path

import stored
from results_reference import group_bytes, read, write
from results_sheets import MOST, RULES, SIZES, of_numbers, parts

FILE = Path(__file__).resolve().parents[1] / 'vectors' / 'results.txt'

EMPTY = 0, [], [], [], []
SMALL = 2, [1, 1, 0, 2, 1], [3, 2, 1, 0], [0, 1, 2, 1, 1, 2], [1, 8, 8, 8, 16, 0, 300, 8, 16, 16]
WIDE = 1, [0, 1], [MOST, 2 ** 63], [0, 0, MOST, 0, 1, 0, 2 ** 32, 0, 0], [MOST, 0, 0, 0, 2 ** 63, 0, 0, 0, 0, MOST]
LEVEL = 3, [1, 2, 3, 3, 0], [], [], [3, 1, 2, 3, 4, 7, 1, 2, 3, 4]


def runs(most):
    """what the Rust finds of the stored maps whose results are shortest"""
    found = []
    for _, _, of in stored.maps():
        found.append((max(of['labels'], default=0), of['labels'], of['tallies'], of['pairs'], of['rows']))
    return sorted(found, key=lambda of: sum(map(len, of[1:])))[:most]


def sheet(of):
    return b''.join(parts(of))


def lengths(of):
    return tuple(map(len, of[1:]))


# ---- what is read

def good():
    for of in (EMPTY, SMALL, WIDE, LEVEL, *runs(40)):
        yield sheet(of), *lengths(of)


def each_byte():
    """every byte of several sheets damaged"""
    for of in (EMPTY, SMALL, WIDE, LEVEL, runs(1)[0]):
        data = sheet(of)
        for at, byte in enumerate(data):
            for other in sorted({0, 127, 128, 255, byte ^ 1, byte ^ 128, (byte + 1) % 256} - {byte}):
                yield data[:at] + bytes([other]) + data[at + 1:]


def wrong_counts():
    """of each list, with its entries behind the count and with nothing behind it"""
    for of in (EMPTY, SMALL, WIDE):
        for k in range(1, 5):
            right = len(of[k]) // SIZES[k - 1]
            for count in (2 ** 63, MOST, 2 ** 62, 2 ** 61, 2 ** 32, 257, 256, right + 1, max(right - 1, 0)):
                whole = parts(of, {k: count})
                at = 2 + sum(1 + len(each) for each in of[1:k])
                yield b''.join(whole)
                yield b''.join(whole[:at + 1])


def early_ends():
    for of in (SMALL, WIDE, LEVEL, runs(3)[2]):
        data = sheet(of)
        for end in range(len(data)):
            yield data[:end]
        for more in (b'\0', b'\x80', b'\2\0\0\0\0\0'):
            yield data + more


def broken():
    """each rule alone, any two and all together"""
    draw = random.Random(15)
    for names in (*((name,) for name in RULES), *itertools.combinations(RULES, 2), tuple(RULES)):
        for of in (EMPTY, SMALL, WIDE, LEVEL, *(of_numbers(draw) for _ in range(3))):
            for name in names:
                of = RULES[name](draw, of)
            yield of


def rules():
    for of in broken():
        yield sheet(of)


def ill_formed_behind():
    """14 behind a 15: an early end, bytes left over, a number too long"""
    for of in list(broken())[::3]:
        data = sheet(of)
        yield data[:-1]
        yield data + b'\0'
        yield data[:-1] + b'\xff' * 10


def one_short():
    """each lent list one number short, and of a result that breaks a rule or is ill formed"""
    for of in (SMALL, WIDE, *runs(2)):
        for short in itertools.product((0, 1), repeat=4):
            rooms = tuple(room - cut for room, cut in zip(lengths(of), short))
            if min(rooms) >= 0:
                yield sheet(of), *rooms
    for data in (sheet((3, *SMALL[1:])), sheet(SMALL)[:-1]):
        yield data, 0, 0, 0, 0


# Numbers with groups of 0 at the end, each refused 14 at its first byte.
def padded():
    for of in (EMPTY, SMALL, WIDE):
        numbers = parts(of)
        for k, number in enumerate(numbers):
            for groups in range(1, 11 - len(number)):
                long = number[:-1] + bytes([number[-1] | 128]) + b'\x80' * (groups - 1) + b'\0'
                if groups in (1, 2, 10 - len(number)):
                    yield b''.join(numbers[:k]) + long + b''.join(numbers[k + 1:])


def kinds():
    for kind in (0, 1, 3, 130, 258, 2 ** 32 + 2, MOST):
        yield group_bytes(kind) + sheet(SMALL)[1:]


def reads():
    """bytes, and the lengths of the four lists; where none are given, one number a byte, which is enough"""
    for source in (good, one_short):
        yield from ((data, rooms) for data, *rooms in source())
    for source in (kinds, each_byte, wrong_counts, early_ends, rules, ill_formed_behind, padded):
        yield from ((data, (len(data),) * len(SIZES)) for data in source())


# ---- what is written

def writes():
    for of in (EMPTY, SMALL, WIDE, LEVEL, *runs(4)):
        size = len(sheet(of))
        for room in (size, size - 1, size + 3, 0):
            yield of, room
        for k in (2, 3, 4):
            if of[k]:
                yield (*of[:k], of[k][:-1], *of[k + 1:]), size
    for of in broken():
        yield of, 2 ** 16
        yield (*of[:2], of[2] + [7], *of[3:]), 0


def read_line(data, rooms):
    said = read(data)
    if said[0] == 'read' and any(len(each) > room for each, room in zip(said[1][1:], rooms)):
        said = 'refused', 10, 0
    answer = [[0, 0], [said[1][0]], *said[1][1:]] if said[0] == 'read' else [said[1:]]
    return [f'read {data.hex()}', *(' '.join(map(str, each)) for each in (rooms, *answer))]


def write_line(of, room):
    said = write(*of, room)
    answer = [f'0 {len(said[1])}', said[1].hex()] if said[0] == 'written' else [f'{said[1]} {said[2]}']
    return [f'write {of[0]}', *(' '.join(map(str, each)) for each in of[1:]), str(room), *answer]


def main():
    parser = argparse.ArgumentParser(description=__doc__, formatter_class=argparse.RawDescriptionHelpFormatter)
    parser.add_argument('file', nargs='?', default=FILE, type=Path)
    file = parser.parse_args().file
    lines = [*(read_line(*case) for case in reads()), *(write_line(*case) for case in writes())]
    texts = list(dict.fromkeys(';'.join(line) for line in lines))
    file.write_text(''.join(f'{text}\n' for text in texts))
    print(len(texts), 'cases')


if __name__ == '__main__':
    main()
