"""Result sheets: results that keep the rules, of drawn maps and of any numbers of 64 bits, and the ways in which one is damaged."""
from __future__ import annotations

import random
from collections.abc import Callable, Iterator

import package  # noqa: F401
import generate
from damage import BYTE_DAMAGE
from jenwyllt.unproved import reference
from plan import spice
from results_reference import PAIR, ROW, TALLIES, group_bytes

MOST = 2 ** 64 - 1
SIZES = 1, TALLIES, PAIR, ROW
Result = tuple[int, list[int], list[int], list[int], list[int]]


def flat(entries) -> list[int]:
    return [number for entry in entries for number in entry]


def entries(numbers: list[int], size: int) -> list[list[int]]:
    return [numbers[k:k + size] for k in range(0, len(numbers), size)]


def row_key(row: list[int]) -> list[int]:
    return row[1:] + row[:1]


# ---- results that keep the rules

def of_map(r: random.Random) -> Result:
    """what the rendering in Python finds of a small map"""
    m = spice(r, generate.small_plan(r)).finished()
    m.pass_number = r.choice((1, 2, 3))
    found = reference.results(m)
    return found['regions'], list(found['labels']), flat(found['tallies']), flat(found['pairs']), flat(found['rows'])


def of_numbers(r: random.Random) -> Result:
    """of any numbers, as no map may give them"""
    most = r.choice((2, 3, 300, MOST))
    regions, labels = 0, []
    for _ in range(r.choice((0, 1, 5, 12, 40))):
        labels.append(r.randrange(regions + 2))
        regions = max(regions, labels[-1])

    def distinct(size: int, key: Callable) -> list[int]:
        drawn = {tuple(r.randint(0, most) for _ in range(size)) for _ in range(r.choice((0, 1, 2, 3, 8)))}
        return flat(sorted(map(list, drawn), key=key))

    return regions, labels, [r.randint(0, MOST) for _ in range(TALLIES * r.randrange(4))], distinct(PAIR, list), distinct(ROW, row_key)


# ---- the rules, broken

def label_ahead(r: random.Random, of: Result) -> Result:
    regions, labels, *rest = of
    at = r.randrange(len(labels) + 1)
    started = max(labels[:at], default=0)
    return regions, labels[:at] + [r.choice((started + 2, started + 3, MOST))] + labels[at + r.randrange(2):], *rest


def label_over(r: random.Random, of: Result) -> Result:
    """the last number that the labels start is over the region count"""
    return r.randrange(of[0]) if of[0] else 0, of[1] if of[0] else [1], *of[2:]


def count_not_reached(r: random.Random, of: Result) -> Result:
    return r.choice((of[0] + 1, of[0] + 2, MOST)), *of[1:]


def no_ascent(which: int) -> Callable[[random.Random, Result], Result]:
    """two neighbours equal or in the wrong order, in the list of this place"""
    def broken(r: random.Random, of: Result) -> Result:
        size = SIZES[which - 1]
        listed = entries(of[which], size) or [[r.randrange(9) for _ in range(size)]]
        at = r.randrange(len(listed))
        again = list(listed[at])
        if r.random() < 0.5 and at:
            listed[at - 1], listed[at] = listed[at], listed[at - 1]
        else:
            if which == 4 and again[0] and r.random() < 0.4:
                again[0] -= r.randint(1, again[0])
            listed.insert(at + 1, again)
        return (*of[:which], flat(listed), *of[which + 1:])
    return broken


RULES = {'label ahead': label_ahead, 'label over the count': label_over, 'count not reached': count_not_reached, 'pairs': no_ascent(3), 'rows': no_ascent(4)}


# ---- bytes

def numbers(of: Result, counts: dict[int, int] | None = None) -> list[int]:
    """the sheet's numbers, with the counts that are set wrong, by the place of the list"""
    out = [2, of[0]]
    for k, (listed, size) in enumerate(zip(of[1:], SIZES), 1):
        out += [(counts or {}).get(k, len(listed) // size), *listed]
    return out


def parts(of: Result, counts: dict[int, int] | None = None) -> list[bytes]:
    return [group_bytes(number) for number in numbers(of, counts)]


def changed_byte(r: random.Random, parts: list[bytes]) -> bytes:
    data = bytearray(b''.join(parts))
    data[r.randrange(len(data))] = r.randrange(256)
    return bytes(data)


DAMAGE = {**BYTE_DAMAGE, 'byte': changed_byte}


def sheets(count: int, seed: object) -> Iterator[tuple[str, bytes]]:
    """what was done, and the bytes: rules broken alone and together, wrong counts, damaged bytes"""
    for k in range(count):
        r = random.Random(f'results {seed}/{k}')
        of = of_map(r) if r.random() < 0.4 else of_numbers(r)
        broken = r.sample(sorted(RULES), k=r.choice((0, 0, 1, 1, 2, 3)))
        for name in broken:
            of = RULES[name](r, of)
        counts = {}
        if r.random() < 0.15:
            at = r.randrange(1, 5)
            right = len(of[at]) // SIZES[at - 1]
            counts[at] = r.choice((2 ** 63, MOST, 2 ** 32, 257, right + 1, max(right - 1, 0)))
        style = r.choice(('none',) * 6 + tuple(sorted(DAMAGE)))
        yield '+'.join(broken + ['count'] * len(counts) + [style]), DAMAGE[style](r, parts(of, counts))
