"""Lists of pool terms: such as keep the rules, and from each of them such as break one rule at one position; and dates to ask for."""
from __future__ import annotations

import datetime
import random
from collections.abc import Iterator

from pool_reference import FIRST

MOST = 2 ** 64 - 1
# Map numbers with equal remainders by 4,096, the slots of the library's table, and the ends of the range.
MAPS = [0, 1, 7, 9, 4096, 4103, 2 ** 32 + 7, MOST, MOST - 4096]
BAD = [(1999, 12, 31), (2100, 1, 1), (2100, 1, 2), (2001, 2, 29), (2000, 2, 30), (2096, 2, 30), (2004, 4, 31), (2004, 0, 1), (2004, 13, 1), (2004, 1, 0),
       (2004, 1, 32), (0, 0, 0), (MOST, 1, 1), (2004, MOST, 1), (2004, 1, MOST), (2 ** 32 + 2004, 1, 1), (2004, 2 ** 32 + 1, 1), (1900, 2, 28), (2100, 2, 29)]

Term = list[int]


def date(number: int) -> tuple[int, int, int]:
    at = FIRST + datetime.timedelta(number)
    return at.year, at.month, at.day


def term(number: int, first: int, end: int) -> Term:
    return [number, *date(first), *date(end)]


def kept(draw: random.Random, count: int, maps: list[int]) -> list[Term]:
    """terms that keep the rules, in any order; many touch, and many start or end where others do"""
    near = draw.randrange(0, 36_000)
    cuts = {number: sorted(draw.sample(range(near, near + 40), 8)) if draw.random() < 0.9 else [0, 59, 60, 366, 36_524, 36_525] for number in maps}
    terms = []
    for number, days in cuts.items():
        for first, end in zip(days, days[1:]):
            if draw.random() < 0.7:
                terms.append(term(number, first, end))
    draw.shuffle(terms)
    return terms[:count]


def damaged(draw: random.Random, terms: list[Term], i: int, maps: list[int]) -> Iterator[list[Term]]:
    """term i with a bad date, empty, turned round, or longer by some days"""
    number, *dates = terms[i]
    first, end = dates[:3], dates[3:]
    bad = list(draw.choice(BAD))
    for changed in ([number, *bad, *end], [number, *first, *bad], [number, *first, *first], [number, *end, *first], [number, *bad, *first],
                    [number, *first, *date(min((datetime.date(*end) - FIRST).days + draw.choice((1, 2, 30)), 36_525))], [draw.choice(maps), *first, *end]):
        yield terms[:i] + [changed] + terms[i + 1:]


def asked(draw: random.Random, terms: list[Term]) -> tuple[int, int, int]:
    """a day at, before or behind the ends of terms, or any day, or a bad date"""
    kind = draw.random()
    if kind < 0.1:
        return draw.choice(BAD)
    if kind < 0.2 or not terms:
        return date(draw.randrange(36_525))
    one = draw.choice(terms)
    try:
        number = (datetime.date(*draw.choice((one[1:4], one[4:]))) - FIRST).days + draw.choice((-1, 0, 0, 1))
    except (ValueError, OverflowError):
        return draw.choice(BAD)
    return date(min(max(number, 0), 36_524))
