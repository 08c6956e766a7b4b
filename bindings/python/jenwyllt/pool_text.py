"""Pool terms as text, a term a line, and in words what a term does that breaks a rule."""
from __future__ import annotations

import datetime
import re
from collections.abc import Sequence

from .accession_text import MOST
from .pool import Date, Term, date_of
from .sheet_text import Wrong

FORMAT = '''A term is a line: the number of its map, its first day and its end, which no longer belongs to it, as 7 2031-05-07 2031-06-01.
Days are from 2000-01-01 to 2099-12-31, an end also 2100-01-01. The terms of one map may touch but not overlap. What stands behind
a semicolon is a comment; empty lines are passed over.'''
DATE = re.compile(r'([0-9]{4})-([0-9]{2})-([0-9]{2})', re.ASCII)
LAST_END = Date(2100, 1, 1)


def date_in(word: str) -> Date | None:
    """the date of a word such as 2031-05-07; whether there is such a day is not asked"""
    found = DATE.fullmatch(word)
    return Date(*map(int, found.groups())) if found else None


def shown(day: Date) -> str:
    return f'{day.year:04}-{day.month:02}-{day.day:02}'


def is_day(day: Date) -> bool:
    try:
        return datetime.date(*day).year in range(2000, 2100)
    except (ValueError, OverflowError):
        return False


def of_number(number: int) -> str:
    """a record's day as a date, where it is of the century"""
    return shown(date_of(datetime.date(2000, 1, 1) + datetime.timedelta(number))) if number < 36_525 else f'day {number}'


def terms_of(text: str) -> tuple[list[Term], list[int]]:
    """the terms, and the line of each; raises Wrong"""
    terms, lines = [], []
    for line, written in enumerate(text.splitlines(), 1):
        words = written.partition(';')[0].split()
        if not words:
            continue
        if len(words) != 3:
            raise Wrong(line, f'a term has a map number, a first day and an end, and here {"is one word" if len(words) == 1 else f"are {len(words)} words"}')
        if not (words[0].isascii() and words[0].isdecimal() and int(words[0]) <= MOST):
            raise Wrong(line, f'{words[0]!r} is no whole number from 0 to {MOST:,}')
        first, end = map(date_in, words[1:])
        if first is None or end is None:
            raise Wrong(line, f'{words[1 if first is None else 2]!r} is no date as 2031-05-07')
        terms.append(Term(int(words[0]), first, end))
        lines.append(line)
    return terms, lines


def fault_words(terms: Sequence[Term], lines: Sequence[int], position: int) -> str:
    """which rule the term at this position breaks, where those before it keep all of them"""
    term = terms[position]
    for day, fits, what in ((term.first, is_day(term.first), 'a first day'), (term.end, is_day(term.end) or term.end == LAST_END, 'an end')):
        if not fits:
            return f'{shown(day)} is no date that {what} can have'
    if term.end <= term.first:
        return f'it ends on {shown(term.end)}, no later than it starts'
    for line, other in zip(lines[:position], terms):
        if other.map == term.map and other.first < term.end and term.first < other.end:
            return f'it overlaps the term of map {term.map} from {shown(other.first)} to {shown(other.end)}, line {line}'
    raise AssertionError('the term breaks no rule')
