"""The maps of a day as document 02, request 8, has them: an independent rendering. Its calendar is Python's own `datetime`, and a term is its set of days.

    maps_of_day(terms, records, date, room) -> (number, value, rows)

`terms` and `records` are the lists as they are lent, seven and four numbers an entry; `date` is year, month and day; `room` the length of the lent output.
Success has number 0, the count of maps, and the rows; a refusal has its number, its place and no rows.
"""
from __future__ import annotations

import datetime

from accession_reference import first_broken

FIRST = datetime.date(2000, 1, 1)
LAST_END = (2100, 1, 1)


def day_of(year: int, month: int, day: int) -> int | None:
    """the number of a day from 2000 to 2099"""
    if year not in range(2000, 2100):
        return None
    try:
        return (datetime.date(year, month, day) - FIRST).days
    except (ValueError, OverflowError):
        return None


def end_of(year: int, month: int, day: int) -> int | None:
    if (year, month, day) == LAST_END:
        return (datetime.date(*LAST_END) - FIRST).days
    return day_of(year, month, day)


def first_fault(terms: list[tuple[int, ...]]) -> tuple[int, int] | None:
    """the number and the place of the first term that breaks a rule"""
    taken: dict[int, set[int]] = {}                 # the days of each map
    for position, (number, *dates) in enumerate(terms):
        first, end = day_of(*dates[:3]), end_of(*dates[3:])
        if first is None or end is None:
            return 18, position
        days = set(range(first, end))
        if not days or days & taken.setdefault(number, set()):
            return 19, position
        taken[number] |= days
    return None


def maps_of_day(terms: list[int], records: list[int], date: tuple[int, int, int], room: int) -> tuple[int, int, list[int]]:
    if len(terms) % 7 or len(records) % 4:
        return 3, 0, []
    accessions = [tuple(records[k:k + 4]) for k in range(0, len(records), 4)]
    broken = first_broken(accessions)
    if broken is not None:
        return 17, broken[0], []
    listed = [tuple(terms[k:k + 7]) for k in range(0, len(terms), 7)]
    fault = first_fault(listed)
    if fault is not None:
        return *fault, []
    asked = day_of(*date)
    if asked is None:
        return 18, len(listed), []
    maps = {term[0] for term in listed if day_of(*term[1:4]) <= asked < end_of(*term[4:])}
    newest = {record[1]: record for record in accessions if record[2] <= asked}
    rows = []
    for number in sorted(maps):
        own, _, day, superseded = newest.get(number, (0, number, 0, 0))
        rows += [number, own, day, superseded]
    return (10, 0, []) if len(rows) > room else (0, len(maps), rows)
