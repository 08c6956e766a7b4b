"""Lists of accession records: such as keep the rules, and from each of them such as break one rule at one position."""
from __future__ import annotations

import random
from collections.abc import Iterator

MOST = 2 ** 64 - 1
# Map numbers whose slots in the library's tables are equal, or nearly so: multiples of 509 and of 32,749.
MAPS = [0, 1, 7, 9, 509, 1018, 1019, 32749, 65498, 509 * 32749, MOST, MOST - 509]

Record = list[int]


def kept(draw: random.Random, count: int, maps: list[int]) -> list[Record]:
    """a list that keeps the rules"""
    records: list[Record] = []
    last: dict[int, Record] = {}
    own = 0
    for _ in range(count):
        own += draw.choice((1, 1, 2, 50))
        number = draw.choice(maps)
        before = last.get(number)
        day = before[2] + draw.choice((0, 0, 1, 9)) if before else draw.randrange(40)
        last[number] = [own, number, day, before[0] if before else 0]
        records.append(last[number])
    return records


def with_one(records: list[Record], i: int, field: int, value: int) -> list[Record]:
    return records[:i] + [records[i][:field] + [value] + records[i][field + 1:]] + records[i + 1:]


def damaged(records: list[Record], i: int) -> Iterator[list[Record]]:
    """record i changed so that it may break each rule in turn, in each way"""
    own, number, day, target = records[i]
    owns = {0, own, MOST} | ({records[i - 1][0], records[i - 1][0] - 1} if i else set())
    for value in sorted(owns - {own}):
        yield with_one(records, i, 0, value)
    for value in sorted({0, max(day - 1, 0), MOST} - {day}):
        yield with_one(records, i, 2, value)
    for value in sorted({r[1] for r in records} | {records[i][1] + 1 if number < MOST else 0} - {number}):
        yield with_one(records, i, 1, value)
    targets = {0, own, own + 1, MOST} | {r[0] for r in records} | {r[3] for r in records[:i]}
    for value in sorted(targets - {target}):
        yield with_one(records, i, 3, value)


def flat(records: list[Record]) -> list[int]:
    return [number for record in records for number in record]
