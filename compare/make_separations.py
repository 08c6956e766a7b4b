"""Makes vectors/separations.txt: calls of the list of separations and what they must answer, worked out by the rendering in Python and the table of refusals.

    python3 make_separations.py [--check]

With --check it says whether the file is as it makes it. The seed is fixed. vectors/README.md has the format.
"""
from __future__ import annotations

import random
import sys
from collections.abc import Iterator
from pathlib import Path

import package  # noqa: F401
from jenwyllt.refusal import Refusal
from jenwyllt.sheet import MOST_ENTRIES, Boundary, bits_of, flat
from jenwyllt.unproved.separations import separations
from separations import KINDS, WORST_KNOWN, Four, on_map

FILE = Path(__file__).resolve().parents[1] / 'vectors' / 'separations.txt'
SEED = 10
WIDTH = bits_of(8.0)
RAMP = 1, 7, 0, 1
UNFIT = ((0, 0, 0, 9, WIDTH, 0, 0, 0, 0), (9, 0, 0, 0, WIDTH, 0, 0, 0, 0), (0, 0, 0, 0, bits_of(-0.0), 0, 0, 0, 0), (0, 0, 0, 0, bits_of(65536.0) + 1, 0, 0, 0, 0),
         (0, 0, 0, 0, bits_of(float('inf')), 0, 0, 0, 0), (0, 0, 0, 0, bits_of(float('nan')), 0, 0, 0, 0), (0, 0, 0, 0, WIDTH, 3, 0, 0, 0),
         (0, 0, 0, 0, WIDTH, 0, 1, 0, 0), (0, 0, 0, 0, WIDTH, 0, 0, 1, 0), (0, 0, 0, 0, WIDTH, 0, 0, 0, 1), (0, 0, 0, 0, WIDTH, 1, 1 << 32, 0, 0),
         (0, 0, 0, 0, WIDTH, 1, 0, 8, 0), (0, 0, 0, 0, WIDTH, 2, 0, 0, 8))


def boundary(four: Four, ramp: tuple[int, int, int, int] = (0, 0, 0, 0)) -> list[int]:
    return [*four, WIDTH, *ramp]


def case(width: int, height: int, boundaries: list[int], room: int) -> str:
    """a line: what is told and lent, and number, value and rows; a square in lowest terms"""
    numbers: list[int] = []
    try:
        if not (1 <= width <= 1024 and 1 <= height <= 1024):
            raise Refusal(1)
        if len(boundaries) % 9 or len(boundaries) > 9 * MOST_ENTRIES:
            raise Refusal(3)
        rows = separations(width, height, [Boundary.of_numbers(boundaries[k:k + 9]) for k in range(0, len(boundaries), 9)])
        if 5 * len(rows) > room:
            raise Refusal(10)
        answer = 0, len(rows)
        numbers = [number for row in rows for number in row]
    except Refusal as refusal:
        answer = refusal.number, refusal.place
    return ' '.join(map(str, (width, height, len(boundaries), *boundaries, room, *answer, *numbers)))


def cases() -> Iterator[str]:
    r = random.Random(SEED)
    for s, t in (WORST_KNOWN, *(kind(r) for _ in range(12) for kind in KINDS)):
        yield case(1024, 1024, boundary(s) + boundary(t, RAMP), 5 + r.randint(0, 3))
    for count in (0, 1, 2, 3, 5, 8, 12):
        some = [number for k in range(count) for number in boundary(KINDS[k % len(KINDS)](r)[k % 2])]
        rows = 5 * count * (count - 1) // 2
        for room in {rows, rows + 7, max(rows - 1, 0)}:
            yield case(1024, 1024, some, room)
    good = boundary((0, 0, 8, 8)) + boundary((0, 8, 8, 0)) + boundary((3, 3, 3, 3), RAMP)
    for width, height in ((0, 1), (1, 0), (1025, 1), (1, 1025), (0, 0), (1 << 63, 1), (1, 1), (2, 1)):
        for unfinished in ([], [0], [0] * 8):
            yield case(width, height, good + unfinished, 15)
            yield case(width, height, good + unfinished, 14)
    yield case(1, 1, boundary((0, 0, 0, 0)) * 256, 0)
    yield case(1, 1, boundary((0, 0, 0, 0)) * 257, 1 << 18)
    for nine in UNFIT:
        for place in range(3):
            yield case(1, 1, [*good[:9 * place], *nine, *good[9 * place:]], 30)
        yield case(1, 1, [*good, *nine, *nine], 0)
    for _ in range(60):
        near = [number for _ in range(r.randint(2, 4)) for number in boundary(tuple(on_map(r.randint(0, 17)) for _ in range(4)))]
        yield case(2, 2, near, 30)


def main(words: list[str]) -> int:
    if words == ['--help']:
        print(__doc__.strip())
        return 0
    if words not in ([], ['--check']):
        print('usage: make_separations.py [--check]', file=sys.stderr)
        return 2
    text = ''.join(f'{line}\n' for line in cases())
    if words:
        same = FILE.read_text() == text
        print('as it is made' if same else 'not as it is made')
        return 0 if same else 1
    FILE.write_text(text)
    print(f'{FILE.name}: {text.count(chr(10))} calls')
    return 0


if __name__ == '__main__':
    sys.exit(main(sys.argv[1:]))
