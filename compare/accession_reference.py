"""Accession records as document 02, request 7, has them: an independent rendering, one walk with a dictionary by map number.

    report_line(numbers, own, room) -> (number, value, rows)

`numbers` is the list as it is lent, four numbers a record; `room` the length of the lent output. Success has number 0, the count of records, and the rows;
a refusal has its number, its place and no rows.
"""
from __future__ import annotations


def broken_rule(record: tuple[int, ...], last_own: int, newest: dict[int, tuple[int, ...]], by_own: dict[int, int], superseded: set[int]) -> str | None:
    """the rule that a record breaks after those before it"""
    own, number, day, target = record
    if own <= last_own:
        return 'own number'
    if number in newest and day < newest[number][2]:
        return 'day'
    if target == 0:
        return 'second 0' if number in newest else None
    if by_own.get(target) != number:
        return 'no earlier record of its map'
    return 'superseded already' if target in superseded else None


def first_broken(records: list[tuple[int, ...]]) -> tuple[int, str] | None:
    """the position of the first record that breaks a rule, and the rule"""
    last_own = 0
    newest: dict[int, tuple[int, ...]] = {}         # by map number
    by_own: dict[int, int] = {}                     # the map number of each own number so far
    superseded: set[int] = set()
    for position, record in enumerate(records):
        rule = broken_rule(record, last_own, newest, by_own, superseded)
        if rule:
            return position, rule
        last_own = record[0]
        newest[record[1]] = record
        by_own[record[0]] = record[1]
        if record[3]:
            superseded.add(record[3])
    return None


def records_of(numbers: list[int]) -> list[tuple[int, ...]]:
    return [tuple(numbers[k:k + 4]) for k in range(0, len(numbers) - len(numbers) % 4, 4)]


def report_line(numbers: list[int], own: int, room: int) -> tuple[int, int, list[int]]:
    if len(numbers) % 4:
        return 3, 0, []
    records = records_of(numbers)
    broken = first_broken(records)
    if broken is not None:
        return 17, broken[0], []
    maps = [record[1] for record in records if record[0] == own]
    line = [record for record in reversed(records) if maps and record[1] == maps[0]]
    rows = [number for record in line for number in record]
    return (10, 0, []) if len(rows) > room else (0, len(line), rows)
