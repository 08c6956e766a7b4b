"""Accession records as text, a record a line, and in words what a record does that breaks a rule."""
from __future__ import annotations

from collections.abc import Sequence

from .accession import ACCESSION_NUMBERS, Accession
from .sheet_text import Wrong

FORMAT = '''A record is a line of four numbers: its own number, the number of its map, the day, and the own number of the record
that it supersedes, or 0. Own numbers start above 0 and ascend; a map's first record has 0, and every other one supersedes the
last of its map before it. What stands behind a semicolon is a comment; empty lines are passed over.'''
MOST = 2 ** 64 - 1


def records_of(text: str) -> tuple[list[Accession], list[int]]:
    """the records, and the line of each; raises Wrong"""
    records, lines = [], []
    for line, written in enumerate(text.splitlines(), 1):
        words = written.partition(';')[0].split()
        if not words:
            continue
        if len(words) != ACCESSION_NUMBERS:
            raise Wrong(line, f'a record has four numbers, own number, map, day and number superseded, and here {"is" if len(words) == 1 else "are"} {len(words)}')
        for word in words:
            if not (word.isascii() and word.isdecimal() and int(word) <= MOST):
                raise Wrong(line, f'{word!r} is no whole number from 0 to {MOST:,}')
        records.append(Accession(*map(int, words)))
        lines.append(line)
    return records, lines


def text_of(records: Sequence[Accession]) -> str:
    return ''.join(f'{" ".join(map(str, record))}\n' for record in records)


def broken_words(records: Sequence[Accession], position: int) -> str:
    """which rule the record at this position breaks, where those before it keep all of them"""
    record, before = records[position], records[:position]
    same = [each for each in before if each.map == record.map]
    if record.own == 0:
        return 'its own number is 0'
    if before and record.own <= before[-1].own:
        return f'its own number is not above {before[-1].own}, that of the record before it'
    if same and record.day < same[-1].day:
        return f'its day is before day {same[-1].day} of record {same[-1].own}, of the same map'
    if record.superseded == 0:
        return f'it supersedes none, and record {same[-1].own} of its map is before it'
    if not same:
        return f'it is the first of map {record.map}, and supersedes {record.superseded} in place of 0'
    if record.superseded not in {each.own for each in same}:
        return f'no record of map {record.map} before it has the own number {record.superseded}'
    return f'record {record.superseded} is superseded already; the last of map {record.map} before it is {same[-1].own}'
