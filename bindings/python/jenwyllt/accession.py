"""Accession records of the archive's catalogue: the whole line of an own number."""
from __future__ import annotations

from collections.abc import Iterable
from typing import NamedTuple

from ._library import U64, Function, ListOf, lent
from .partition import Answer
from .sheet import grouped

ACCESSION_NUMBERS = 4


class Accession(NamedTuple):
    """a record: its own number, the number of its map, the day, and the own number of the record that it supersedes, or 0"""
    own: int
    map: int
    day: int
    superseded: int


REPORT_LINE = Function('jenwyllt_report_line', Answer, records=ListOf(U64), own=U64, output=ListOf(U64, filled=True))


def report_line(records: Iterable[Accession], own: int) -> list[Accession]:
    """every record of the map of an own number, newest first; none for an unknown number. Refused 17 at the first record that breaks a rule"""
    listed = lent(U64, (number for record in records for number in record))
    output = lent(U64, len(listed))
    count = REPORT_LINE(listed, own, output).count()
    return [Accession(*four) for four in grouped(output[:ACCESSION_NUMBERS * count], ACCESSION_NUMBERS)]
