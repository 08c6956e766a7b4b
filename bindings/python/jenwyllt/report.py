"""The year's figures: a report that runs are added to one by one, 10,000 at most."""
from __future__ import annotations

import ctypes
from typing import NamedTuple

from ._library import BOOL, U8, U16, U32, U64, Function, ListOf, lent
from .kept import ROW_NUMBERS, Region
from .partition import PARTITION, Room
from .refusal import Refusal
from .sheet import ANCHOR_NUMBERS, BOUNDARY_NUMBERS, MOST_ENTRIES, MOST_SIDE, SPAN_NUMBERS

MOST_RUNS = 10_000
PASSES = 1, 2, 3
REFUSAL_NUMBERS = 25


class Figures(ctypes.Structure):
    """of accepted runs of a pass: how many they are, and of these the boundaries in, kept and removed"""
    _fields_ = [('accepted', U64), ('boundaries', U64), ('kept', U64), ('removed', U64)]
    accepted: int
    boundaries: int
    kept: int
    removed: int


class Report(ctypes.Structure):
    """all runs, refused ones by their number (refused[n]; refused[0] is 0), the figures of each pass, and the total of squared lengths of kept rows in square pixels"""
    _fields_ = [('runs', U64), ('refused', U64 * REFUSAL_NUMBERS), ('pass_1', Figures), ('pass_2', Figures), ('pass_3', Figures), ('squared', U64)]
    runs: int
    squared: int

    def of_pass(self, number: int) -> Figures:
        return getattr(self, f'pass_{number}')

    def refusals(self) -> dict[int, int]:
        """how many runs were refused, by the number, where there was one"""
        return {number: count for number, count in enumerate(self.refused) if count}

    def __eq__(self, other: object) -> bool:
        return isinstance(other, Report) and bytes(self) == bytes(other)


class Reported(ctypes.Structure):
    """number 0 and the count of rows kept, or the refusal's number and place; and the report"""
    _fields_ = [('number', U64), ('value', U64), ('report', Report)]
    number: int
    value: int
    report: Report


class Opened(ctypes.Structure):
    """number 0, place 0 and what the sheet opens with, or the refusal's number and place; and the report"""
    _fields_ = [('number', U64), ('place', U64), ('pass', U64), ('width', U64), ('height', U64), ('spans', U64), ('boundaries', U64), ('anchors', U64),
                ('report', Report)]
    number: int
    place: int
    width: int
    height: int
    spans: int
    boundaries: int
    anchors: int
    report: Report


class MeanAnswer(ctypes.Structure):
    """quotient and remainder are 0 where there is no mean"""
    _fields_ = [('has_mean', BOOL), ('quotient', U64), ('remainder', U64)]
    has_mean: bool
    quotient: int
    remainder: int


class Mean(NamedTuple):
    """kept == quotient * accepted + remainder, with 0 <= remainder < accepted"""
    quotient: int
    remainder: int


EMPTY_REPORT = Function('jenwyllt_empty_report', Report)
MEAN_KEPT = Function('jenwyllt_mean_kept', MeanAnswer, report=Report, **{'pass': U64})
READ_FOR_REPORT = Function('jenwyllt_read_for_report', Opened, report=Report, bytes=ListOf(U8), cells=ListOf(U8, filled=True), spans=ListOf(U64, filled=True),
                           boundaries=ListOf(U64, filled=True), anchors=ListOf(U64, filled=True))
REPORT_SHEET = Function('jenwyllt_report_sheet', Reported, report=Report, bytes=ListOf(U8))
REPORT_RUN = Function(
    'jenwyllt_report_run', Reported, report=Report, **{'pass': U64}, width=U64, height=U64, cells=ListOf(U8), spans=ListOf(U64), boundaries=ListOf(U64),
    anchors=ListOf(U64), labels=ListOf(U32, filled=True), masks=ListOf(U16, filled=True), queue=ListOf(U32, filled=True), tallies=ListOf(U32, filled=True),
    pairs=ListOf(U32, filled=True), records=ListOf(Region, filled=True), output=ListOf(U64, filled=True))


def empty_report() -> Report:
    return EMPTY_REPORT()


def mean_kept(report: Report, pass_number: int) -> Mean | None:
    """None where no run of the pass was accepted, and for a pass that is not 1, 2 or 3"""
    mean = MEAN_KEPT(report, pass_number)
    return Mean(mean.quotient, mean.remainder) if mean.has_mean else None


def read_for(report: Report, data: bytes) -> tuple[Opened, list[ctypes.Array]]:
    """what the sheet opens with, and its cells, spans, boundaries and anchors"""
    # A number takes a byte or more, so no list is too short.
    def room(size: int) -> int:
        return size * min(MOST_ENTRIES, len(data) // size)
    lists = [lent(U8, min(MOST_SIDE * MOST_SIDE, len(data))), *(lent(U64, room(size)) for size in (SPAN_NUMBERS, BOUNDARY_NUMBERS, ANCHOR_NUMBERS))]
    opened = READ_FOR_REPORT(report, lent(U8, data), *lists)
    lengths = opened.width * opened.height, SPAN_NUMBERS * opened.spans, BOUNDARY_NUMBERS * opened.boundaries, ANCHOR_NUMBERS * opened.anchors
    return opened, [lent(each._type_, each[:length]) for each, length in zip(lists, lengths, strict=True)]


def report_sheet(report: Report, data: bytes) -> Reported:
    """the report with a sheet, read and run with the limits of the program `keptlist`; a run beyond the last is refused 3 and the report is as it was"""
    return REPORT_SHEET(report, lent(U8, data))


def long_enough(width: int, height: int, cells: ctypes.Array, spans: ctypes.Array) -> tuple[Room, int]:
    """room for the partition of this map and how many regions it has; of a map that is not partitioned whatever room"""
    room = Room(len(cells), len(spans) // SPAN_NUMBERS)
    try:
        return room, room.filled_by(lambda: PARTITION(width, height, cells, spans, *room.lists()).count())
    except Refusal:
        return room, 0


def report_run(report: Report, data: bytes) -> Reported:
    """the report with a sheet of any size, read and run with lists that are long enough; a run beyond the last is refused 3 and the report is as it was"""
    opened, (cells, spans, boundaries, anchors) = read_for(report, data)
    if opened.number:
        return Reported(opened.number, opened.place, opened.report)
    room, regions = long_enough(opened.width, opened.height, cells, spans)
    return REPORT_RUN(opened.report, getattr(opened, 'pass'), opened.width, opened.height, cells, spans, boundaries, anchors, *room.lists(), lent(Region, regions),
                      lent(U64, ROW_NUMBERS * opened.boundaries))
