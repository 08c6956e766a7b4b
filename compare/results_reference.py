"""Result sheets (kind 2) rendered from document 02, requests 1 and 3, alone: it uses nothing of the library or of the definitions.

`read(data)` gives ('read', (regions, labels, tallies, pairs, rows)) or ('refused', number, place); `write(..)` gives ('written', bytes) or
('refused', number, 0). Lists are flat: two tallies a span, three numbers a pair row, five an output row.
"""
from __future__ import annotations

from collections.abc import Iterator

TALLIES, PAIR, ROW = 2, 3, 5


class Bad(Exception):
    """the sheet is refused 14 at this place"""

    def __init__(self, place: int) -> None:
        super().__init__(place)
        self.place = place


def group_bytes(n: int) -> bytes:
    """a number in shortest form"""
    out = bytearray()
    while n > 127:
        out.append(n & 127 | 128)
        n >>= 7
    out.append(n)
    return bytes(out)


def number(data: bytes, at: int) -> tuple[int, int]:
    value = 0
    for group in range(10):
        if at + group == len(data):
            raise Bad(len(data))
        byte = data[at + group]
        if group == 9 and byte > 1:
            raise Bad(at)
        value |= (byte & 127) << (7 * group)
        if byte < 128:
            if len(group_bytes(value)) <= group:                       # not in the shortest form
                raise Bad(at)
            return value, at + group + 1
    raise AssertionError('a tenth byte of 0 or 1 ends a number')


def entries(data: bytes, at: int, size: int) -> tuple[list[tuple[int, tuple[int, ...]]], int]:
    """a count and its entries, each with the place of its first byte"""
    count, at = number(data, at)
    found = []
    while len(found) < count:
        first, numbers = at, []
        for _ in range(size):
            value, at = number(data, at)
            numbers.append(value)
        found.append((first, tuple(numbers)))
    return found, at


def faults(regions: int, place: int, labels: list, pairs: list, rows: list) -> Iterator[int]:
    """the places that break a rule, in the order in which they are asked for"""
    highest = 0
    for at, (label,) in labels:
        if label > highest + 1 or label == highest + 1 > regions:
            yield at
            return
        highest = max(highest, label)
    if highest < regions:
        yield place
    for listed, key in ((pairs, lambda e: e), (rows, lambda e: e[1:] + e[:1])):
        for (_, before), (at, this) in zip(listed, listed[1:]):
            if key(before) >= key(this):
                yield at
                break


def read(data: bytes) -> tuple:
    try:
        kind, place = number(data, 0)
        if kind != 2:
            return 'refused', 14, 0
        regions, at = number(data, place)
        labels, at = entries(data, at, 1)
        tallies, at = entries(data, at, TALLIES)
        pairs, at = entries(data, at, PAIR)
        rows, at = entries(data, at, ROW)
        if at < len(data):
            raise Bad(at)
    except Bad as bad:
        return 'refused', 14, bad.place
    for at in faults(regions, place, labels, pairs, rows):
        return 'refused', 15, at
    return 'read', (regions, *([n for _, e in listed for n in e] for listed in (labels, tallies, pairs, rows)))


def cut(flat: list[int], size: int) -> list[tuple[int, tuple[int, ...]]]:
    """the whole entries of a flat list, at place 0"""
    return [(0, tuple(flat[i:i + size])) for i in range(0, len(flat) - size + 1, size)]


def write(regions: int, labels: list[int], tallies: list[int], pairs: list[int], rows: list[int], room: int) -> tuple:
    for _ in faults(regions, 0, cut(labels, 1), cut(pairs, PAIR), cut(rows, ROW)):
        return 'refused', 15, 0
    if len(tallies) % TALLIES or len(pairs) % PAIR or len(rows) % ROW:
        return 'refused', 3, 0
    out = group_bytes(2) + group_bytes(regions)
    for flat, size in (labels, 1), (tallies, TALLIES), (pairs, PAIR), (rows, ROW):
        out += group_bytes(len(flat) // size) + b''.join(map(group_bytes, flat))
    return ('written', out) if len(out) <= room else ('refused', 10, 0)
