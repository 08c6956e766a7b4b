"""The maps in the tournament pool on a day, each with the accession record that stood in the catalogue then."""
from __future__ import annotations

import datetime
from collections.abc import Iterable
from typing import NamedTuple

from ._library import U64, Function, ListOf, lent
from .accession import Accession
from .partition import Answer
from .sheet import grouped

TERM_NUMBERS = 7
ENTRY_NUMBERS = 4


class Date(NamedTuple):
    """a Gregorian date; a term or a question may have any three numbers, and one that is no day of 2000 to 2099 is refused"""
    year: int
    month: int
    day: int


class Term(NamedTuple):
    """a map in the pool from its first day to its end, which no longer belongs to the term"""
    map: int
    first: Date
    end: Date


class Entry(NamedTuple):
    """a map of the day, and its newest accession record of that day or earlier, or None"""
    map: int
    record: Accession | None


MAPS_OF_DAY = Function('jenwyllt_maps_of_day', Answer, terms=ListOf(U64), records=ListOf(U64), year=U64, month=U64, day=U64, output=ListOf(U64, filled=True))


def date_of(day: datetime.date) -> Date:
    return Date(day.year, day.month, day.day)


def maps_of_day(terms: Iterable[Term], records: Iterable[Accession], asked: Date) -> list[Entry]:
    """the maps of a day, by number. Refused 17 at the first record that breaks a rule, 18 at the first term with a bad date, 19 at the first that is empty or
    overlaps an earlier term of its map, whichever term comes first, and 18 at the number of terms where the day asked for is no date"""
    listed = [(term.map, *term.first, *term.end) for term in terms]
    output = lent(U64, ENTRY_NUMBERS * len(listed))
    count = MAPS_OF_DAY(lent(U64, (number for term in listed for number in term)), lent(U64, (number for record in records for number in record)), *asked, output).count()
    return [Entry(number, Accession(own, number, day, superseded) if own else None)
            for number, own, day, superseded in grouped(output[:ENTRY_NUMBERS * count], ENTRY_NUMBERS)]
