"""What a run found, as a sheet of kind 2: region count, labels, tallies, pairs and kept rows, in shortest form."""
from __future__ import annotations

import ctypes
from collections.abc import Sequence
from typing import NamedTuple

from ._library import U8, U64, Function, ListOf, lent
from .kept import ROW_NUMBERS
from .partition import PAIR_NUMBERS, TALLY_NUMBERS, Answer
from .refusal import Refusal

MOST_GROUPS = 10                    # bytes of a number of 64 bits

WRITE_RESULT = Function(
    'jenwyllt_write_result', Answer, regions=U64, labels=ListOf(U64), tallies=ListOf(U64), pairs=ListOf(U64), rows=ListOf(U64), out=ListOf(U8, filled=True))


class RunResult(NamedTuple):
    """what a result sheet holds. Lists are flat: two tallies a span, three numbers a pair row, five a kept row"""
    regions: int
    labels: list[int]
    tallies: list[int]
    pairs: list[int]
    rows: list[int]


class ResultAnswer(ctypes.Structure):
    """struct jenwyllt_result"""
    _fields_ = [(name, U64) for name in ('number', 'place', 'regions', 'labels', 'spans', 'pairs', 'rows')]


READ_RESULT = Function(
    'jenwyllt_read_result', ResultAnswer, bytes=ListOf(U8), labels=ListOf(U64, filled=True), tallies=ListOf(U64, filled=True), pairs=ListOf(U64, filled=True),
    rows=ListOf(U64, filled=True))


def read_result(data: bytes) -> RunResult:
    """reads a result sheet; refused 14, and then 15. A 14 anywhere in the sheet comes first"""
    # A number takes a byte or more, so no list is too short.
    sizes = 1, TALLY_NUMBERS, PAIR_NUMBERS, ROW_NUMBERS
    lists = [lent(U64, len(data) // size * size) for size in sizes]
    answer = READ_RESULT(lent(U8, bytes(data)), *lists)
    if answer.number:
        raise Refusal(answer.number, answer.place)
    counts = answer.labels, answer.spans, answer.pairs, answer.rows
    return RunResult(answer.regions, *(list(each[:size * count]) for each, size, count in zip(lists, sizes, counts)))


def write_result(regions: int, labels: Sequence[int], tallies: Sequence[int], pairs: Sequence[int], rows: Sequence[int]) -> bytes:
    """the sheet. Lists are flat: two tallies a span, three numbers a pair row, five a kept row. Refused 15 or 3"""
    lists = [lent(U64, each) for each in (labels, tallies, pairs, rows)]
    out = lent(U8, MOST_GROUPS * (6 + sum(map(len, lists))))
    size = WRITE_RESULT(regions, *lists, out).count()
    return bytes(out[:size])
