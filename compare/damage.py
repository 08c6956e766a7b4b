"""Damaged sheets: every cause of a refusal that a sheet can carry, alone and in pairs, to show the order of the checks."""
import math
import random

import package  # noqa: F401
from plan import spice, ulp_up
from jenwyllt.unproved.hypotenuse import bits
from jenwyllt.unproved.sheet_bytes import number_bytes


def spots(numbers, size):
    return range(len(numbers) // size)


def set_at(numbers, size, k, fields):
    for place, value in fields.items():
        numbers[size * k + place] = value


def of_a_boundary(*choices):
    def damage(r, m):
        if len(m.boundaries) < 9:
            m.boundaries = [0, 0, 8, 8, bits(8.0), 0, 0, 0, 0]
        set_at(m.boundaries, 9, r.choice(spots(m.boundaries, 9)), dict(r.choice(choices)))
    return damage


def side(r, m):
    setattr(m, r.choice(('width', 'height')), r.choice((0, 1025, 1 << 32, (1 << 64) - 1)))


def too_many(r, m):
    which = r.randrange(3)
    count = r.choice((257, 300, 1 << 40))
    m.counts = {which: count}


def span_outside(r, m):
    if len(m.spans) < 4:
        m.spans = [0, 0, 8, 8]
    far = r.choice(((0, 8 * m.width), (1, 8 * m.height), (2, 8 * m.width), (3, 8 * m.height)))
    set_at(m.spans, 4, r.choice(spots(m.spans, 4)), {far[0]: far[1] + r.choice((1, 1, 1 << 32, (1 << 64) - 9000))})


def span_of_no_length(r, m):
    if len(m.spans) < 4:
        m.spans = [0, 0, 8, 8]
    k = r.choice(spots(m.spans, 4))
    set_at(m.spans, 4, k, {2: m.spans[4 * k], 3: m.spans[4 * k + 1]})


def boundary_outside(r, m):
    far = r.choice(((0, 8 * m.width), (1, 8 * m.height), (2, 8 * m.width), (3, 8 * m.height)))
    of_a_boundary({far[0]: far[1] + r.choice((1, 1, 1 << 32))})(r, m)


def anchor_outside(r, m):
    m.anchors = list(m.anchors) + r.choice(([m.width, 0], [0, m.height], [1 << 40, 0], [0, (1 << 64) - 1]))
    if r.random() < 0.5:
        m.anchors += [0, 0]


def high_ground(r, m):
    k = r.randrange(len(m.cells))
    m.cells[k] = 1 + 2 * r.randrange(2) + 4 * r.choice((4, 5, 63))


def regions_in_plenty(r, m):
    """a chequered map: more regions than keptlist has records"""
    n = r.choice((32, 33, 40))
    m.width = m.height = n
    m.cells = [1 - (x + y) % 2 for y in range(n) for x in range(n)]


def pairs_in_plenty(r, m):
    """many spans with many pairs each: more than keptlist has rows"""
    n = r.choice((17, 18, 19))
    m.width, m.height = n, 2
    m.cells = [1 - x % 2 for y in range(2) for x in range(n)]
    m.spans = [0, 8, 8 * n, 8] * r.choice((227, 228, 229, 256))
    m.boundaries, m.anchors = [], []


MAP_DAMAGE = {
    1: [side],
    3: [too_many],
    4: [lambda r, m: setattr(m, 'pass_number', r.choice((0, 4, 255, 1 << 32, (1 << 64) - 1)))],
    5: [span_outside],
    6: [span_of_no_length],
    7: [boundary_outside,
        of_a_boundary({4: bits(math.inf)}, {4: bits(math.nan)}, {4: 0xFFF8 << 48}, {4: (0x7FF << 52) + 1}),
        of_a_boundary({4: 1 << 63}, {4: bits(-8.0)}, {4: bits(-math.inf)}),
        of_a_boundary({4: bits(ulp_up(65536.0))}, {4: bits(1e300)}),
        of_a_boundary({5: 3}, {5: 1 << 40}),
        of_a_boundary({5: 1, 6: 1 << 32}, {5: 2, 6: (1 << 64) - 1}),
        of_a_boundary({5: 1, 7: 8}, {5: 2, 8: 8}, {5: 1, 8: 256}, {5: 1, 7: 1 << 32}),
        of_a_boundary({5: 0, 6: 1}, {5: 0, 7: 1}, {5: 0, 8: 1})],
    8: [anchor_outside],
    9: [high_ground],
    11: [regions_in_plenty],
    12: [pairs_in_plenty],
}


def numbered(m):
    """the sheet's numbers, with the counts that were set wrong"""
    counts = getattr(m, 'counts', {})
    lists = ((m.spans, 4), (m.boundaries, 9), (m.anchors, 2))
    out = [1, m.pass_number, m.width, m.height] + list(m.cells)
    for k, (numbers, size) in enumerate(lists):
        out += [counts.get(k, len(numbers) // size)] + list(numbers)
    return [min(n, (1 << 64) - 1) for n in out]


def cut_short(r, parts):
    data = b''.join(parts)
    return data[:r.choice((r.randrange(len(data)), len(data) - 1, r.randrange(min(len(data), 9))))]


def left_over(r, parts):
    return b''.join(parts) + r.choice((b'\0', b'\1\1', b'\x80', bytes(20)))


def wrong_kind(r, parts):
    return b''.join([number_bytes(r.choice((0, 2, 257, (1 << 64) - 1)), r.choice((0, 0, 1)))] + parts[1:])


def wrong_cell(r, parts):
    k = min(4 + r.randrange(12), len(parts) - 1)
    return b''.join(parts[:k] + [number_bytes(r.choice((256, 257, 1 << 63)))] + parts[k + 1:])


def too_long(r, parts):
    k = r.choice((r.randrange(len(parts)), r.randrange(min(len(parts), 8))))
    long = r.choice((bytes([0x80] * 9 + [2]), bytes([0xFF] * 9 + [0x7F]), bytes([0x81] + [0x80] * 9 + [0]), bytes([0x80] * 9 + [0x80]),
                     bytes([0x80] * 9 + [0x81, 0])))
    tail = b''.join(parts[k + 1:]) if r.random() < 0.8 else b''
    return b''.join(parts[:k]) + long + tail


def padded(part, extra):
    """a number's bytes with so many groups of zero at the end"""
    return part[:-1] + bytes([part[-1] | 0x80]) + b'\x80' * (extra - 1) + b'\0'


def some_padded(r, parts):
    """groups of zero at the end of some numbers; ten groups at most"""
    out = []
    for p in parts:
        if r.random() < 0.2 and len(p) < 10:
            p = padded(p, r.randint(1, 10 - len(p)))
        out.append(p)
    return b''.join(out)


BYTE_DAMAGE = {'cut short': cut_short, 'left over': left_over, 'kind': wrong_kind, 'cell': wrong_cell, 'too long': too_long,
               'padded': some_padded, 'none': lambda r, parts: b''.join(parts)}


def sheets(plan_of, count, seed=1, first=0):
    """(number, what was done, bytes): each damage alone and in pairs, of plans that `plan_of` draws"""
    for k in range(first, first + count):
        r = random.Random(f'damaged {seed}/{k}')
        m = spice(r, plan_of(r)).finished()
        m.pass_number = r.choice((1, 2, 3))
        which = r.choices(sorted(MAP_DAMAGE), weights=[0.6 if n in (1, 3, 4) else 1 for n in sorted(MAP_DAMAGE)], k=r.choice((0, 1, 1, 2, 2, 3)))
        which = sorted(which, key=lambda n: n if n > 10 else n + 100)   # 11 and 12 replace the map, so they come first
        for n in which:
            r.choice(MAP_DAMAGE[n])(r, m)
        style = r.choice(('none',) * 9 + tuple(BYTE_DAMAGE))
        parts = [number_bytes(n) for n in numbered(m)]
        data = BYTE_DAMAGE[style](r, parts)
        if r.random() < 0.01:
            data += bytes(r.choice((65536 - len(data), 65537 - len(data)))) if len(data) < 65536 else b''
        yield k, '+'.join(map(str, which + [style])), data
