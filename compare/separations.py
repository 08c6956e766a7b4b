"""The list of separations against exact rationals.

    python3 separations.py [--pairs 1000000] [--seed 10]

Needs target/lib (tools/build_library.sh). Each pair of boundaries goes through the library; `exact_square` of the package's rendering says what the square
of the distance is, by another way than the definitions. Compared of every pair: the fraction is that square; the separation is within 2^-32 pixel of its root
(by squares, in whole rationals); it is 0.0 exactly when the square is 0; and of every 50th the separation's bits, worked out in Python. First come all
pairs of segments with coordinates 0 to 4, then random and adversarial pairs. The worst error is printed. A difference ends the run with status 1.
"""
from __future__ import annotations

import argparse
import random
import sys
from collections.abc import Callable, Iterator
from fractions import Fraction
from itertools import product
from math import log2, sqrt

import package  # noqa: F401
from jenwyllt._library import U64, lent
from jenwyllt.separations import BOUND, SEPARATION_NUMBERS, SEPARATIONS
from jenwyllt.sheet import BOUNDARY_NUMBERS, MOST_SIDE, PIXELS_PER_CELL, Span, bits_of, double_of
from jenwyllt.unproved import reference
from jenwyllt.unproved.separations import exact_square

Four = tuple[int, int, int, int]
MOST = PIXELS_PER_CELL * MOST_SIDE
WORST_KNOWN = (2499, 1996, 1556, 2890), (8166, 8181, 8192, 8155)    # the largest error found so far
EVERY = 50


# ---- pairs

def anywhere(r: random.Random, most: int = MOST) -> Four:
    return r.randint(0, most), r.randint(0, most), r.randint(0, most), r.randint(0, most)


def on_map(x: int) -> int:
    return min(max(x, 0), MOST)


def near(r: random.Random, four: Four, most: int) -> Four:
    """the same with each number moved a little"""
    a, b, c, d = (on_map(x + r.randint(-most, most)) for x in four)
    return a, b, c, d


def point_of(r: random.Random, four: Four) -> tuple[int, int]:
    """a whole point of a segment, or nearly"""
    part = r.random()
    return round(four[0] + part * (four[2] - four[0])), round(four[1] + part * (four[3] - four[1]))


def on_one_line(r: random.Random) -> tuple[Four, Four]:
    dx, dy = r.randint(0, 60), r.randint(0, 60)
    k, l, m, n = (r.randint(0, MOST // 60) for _ in range(4))
    return (k * dx, k * dy, l * dx, l * dy), (m * dx, m * dy, n * dx, n * dy)


def next_to(r: random.Random) -> tuple[Four, Four]:
    """a long line, and a segment that begins a pixel or so beside it"""
    long = anywhere(r)
    x, y = point_of(r, long)
    begin = on_map(x + r.randint(-1, 1)), on_map(y + r.randint(-1, 1))
    return long, (*begin, r.randint(0, MOST), r.randint(0, MOST))


def parallel(r: random.Random) -> tuple[Four, Four]:
    four = anywhere(r)
    dx, dy = r.randint(-40, 40), r.randint(-40, 40)
    a, b, c, d = on_map(four[0] + dx), on_map(four[1] + dy), on_map(four[2] + dx), on_map(four[3] + dy)
    return four, near(r, (a, b, c, d), 1)


def crossing(r: random.Random) -> tuple[Four, Four]:
    """through a point of the first"""
    four = anywhere(r)
    x, y = point_of(r, four)
    dx, dy = r.randint(-3000, 3000), r.randint(-3000, 3000)
    return four, (on_map(x - dx), on_map(y - dy), on_map(x + dx), on_map(y + dy))


def end_inside(r: random.Random) -> tuple[Four, Four]:
    dx, dy = r.randint(0, 100), r.randint(0, 100)
    k, l, m = r.randint(0, 80), r.randint(0, 80), r.randint(0, 80)
    return (k * dx, k * dy, l * dx, l * dy), (m * dx, m * dy, r.randint(0, MOST), r.randint(0, MOST))


def no_length(r: random.Random) -> tuple[Four, Four]:
    four = anywhere(r)
    x, y = r.choice([point_of(r, four), (r.randint(0, MOST), r.randint(0, MOST)), four[:2]])
    return r.choice([(four, (x, y, x, y)), ((x, y, x, y), four), ((x, y, x, y), (four[0], four[1]) * 2)])


def short_and_far(r: random.Random) -> tuple[Four, Four]:
    """a short segment in a corner: the largest roundings of the foot and of the root"""
    x, y = r.randint(MOST - 200, MOST - 20), r.randint(MOST - 200, MOST - 20)
    first = near(r, (r.randint(0, 3000), r.randint(0, 3000)) * 2, 1000)
    return first, (x, y, on_map(x + r.randint(-20, 20)), on_map(y + r.randint(-20, 20)))


def near_the_worst(r: random.Random) -> tuple[Four, Four]:
    return near(r, WORST_KNOWN[0], 12), near(r, WORST_KNOWN[1], 12)


def corners(r: random.Random) -> tuple[Four, Four]:
    def one() -> Four:
        a, b, c, d = (r.choice([0, 1, MOST - 1, MOST]) for _ in range(4))
        return a, b, c, d
    return one(), one()


def small(r: random.Random) -> tuple[Four, Four]:
    return anywhere(r, 12), anywhere(r, 12)


def drawn(r: random.Random) -> tuple[Four, Four]:
    return anywhere(r), anywhere(r)


KINDS: tuple[Callable[[random.Random], tuple[Four, Four]], ...] = (
    drawn, short_and_far, near_the_worst, next_to, on_one_line, parallel, crossing, end_inside, no_length, corners, small)


def small_pairs() -> Iterator[tuple[Four, Four]]:
    """every pair of segments with coordinates 0 to 4"""
    segments = list(product(range(5), repeat=4))
    return ((s, t) for s in segments for t in segments)


def random_pairs(count: int, seed: int) -> Iterator[tuple[Four, Four]]:
    r = random.Random(seed)
    yield WORST_KNOWN
    for k in range(count - 1):
        yield KINDS[k % len(KINDS)](r)


# ---- the comparison

class Differs(Exception):
    pass


class Check:
    """what was seen so far"""

    def __init__(self) -> None:
        self.pairs = self.shared = 0
        self.worst, self.worst_pair = 0.0, WORST_KNOWN
        self.boundaries, self.output = lent(U64, 2 * BOUNDARY_NUMBERS), lent(U64, SEPARATION_NUMBERS)

    def pair(self, s: Four, t: Four) -> None:
        self.boundaries[:4], self.boundaries[9:13] = s, t
        answer = SEPARATIONS(MOST_SIDE, MOST_SIDE, self.boundaries, self.output)
        i, j, bits, num, den = self.output
        square, x = exact_square(Span.of_numbers(s), Span.of_numbers(t)), double_of(bits)
        if (answer.number, answer.value, i, j) != (0, 1, 0, 1) or num * square.denominator != square.numerator * den:
            raise Differs(f'{s} {t}: {num}/{den}, exactly {square}')
        if (bits == 0) != (square == 0):
            raise Differs(f'{s} {t}: separation {x!r}, exact square {square}')
        exact = Fraction(x)
        low = exact - BOUND
        if not (x >= 0 and square <= (exact + BOUND) ** 2 and (low <= 0 or low ** 2 <= square)):
            raise Differs(f'{s} {t}: separation {x!r} is not within 2^-32 of the root of {square}')
        if self.pairs % EVERY == 0 and bits != bits_of(reference.segment_distance(Span.of_numbers(s), Span.of_numbers(t))):
            raise Differs(f'{s} {t}: separation {x!r}, and in Python {reference.segment_distance(Span.of_numbers(s), Span.of_numbers(t))!r}')
        self.pairs += 1
        self.shared += bits == 0
        if bits:
            error = abs(float(exact * exact - square)) / (x + sqrt(square))
            if error > self.worst:
                self.worst, self.worst_pair = error, (s, t)

    def said(self, what: str) -> None:
        s, t = self.worst_pair
        print(f'{self.pairs} {what}: {self.shared} share a point; worst error 2^{log2(self.worst):.2f} pixel ({self.worst * 2 ** 32:.5f} of 2^-32), '
              f'{" ".join(map(str, s))} and {" ".join(map(str, t))}', flush=True)


def main() -> int:
    parser = argparse.ArgumentParser(description=__doc__, formatter_class=argparse.RawDescriptionHelpFormatter)
    parser.add_argument('--pairs', type=int, default=1_000_000)
    parser.add_argument('--seed', type=int, default=10)
    args = parser.parse_args()
    try:
        for what, pairs in (('pairs with coordinates 0 to 4', small_pairs()), ('random and adversarial pairs', random_pairs(args.pairs, args.seed))):
            check = Check()
            for s, t in pairs:
                check.pair(s, t)
            check.said(what)
    except Differs as wrong:
        print(wrong)
        return 1
    return 0


if __name__ == '__main__':
    sys.exit(main())
