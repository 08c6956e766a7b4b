"""Two desks over one partition."""
from __future__ import annotations

import ctypes
from collections.abc import Sequence
from dataclasses import dataclass
from typing import Any

from ._library import U8, U16, U32, U64, Function, ListOf, lent
from .kept import ROW_NUMBERS, Region, Row
from .partition import Answer, Partition, Room
from .refusal import Cause, Refusal
from .sheet import Boundary, Point, Sheet, Span, flat, grouped


@dataclass(frozen=True)
class Desk:
    """a desk's own pass and lists; boundary i is shared span i, whichever endpoint comes first"""
    pass_number: int
    boundaries: Sequence[Boundary]
    anchors: Sequence[Point]

    @classmethod
    def of(cls, sheet: Sheet) -> Desk:
        """what a sheet says of a desk"""
        return cls(sheet.pass_number, sheet.boundaries, sheet.anchors)


@dataclass(frozen=True)
class Desks:
    """what two desks make of a map: of each its rows, ascending by endpoints, or its own refusal"""
    route: list[Row] | Refusal
    coaching: list[Row] | Refusal
    partition: Partition
    records: list[Region]           # of each region, that of label 1 first


class DesksAnswer(ctypes.Structure):
    _fields_ = [('route', Answer), ('coaching', Answer)]
    route: Answer
    coaching: Answer


TWO_DESKS = Function(
    'jenwyllt_two_desks', DesksAnswer, order=U64, width=U64, height=U64, cells=ListOf(U8), spans=ListOf(U64),
    route_pass=U64, route_boundaries=ListOf(U64), route_anchors=ListOf(U64), coaching_pass=U64, coaching_boundaries=ListOf(U64), coaching_anchors=ListOf(U64),
    labels=ListOf(U32, filled=True), masks=ListOf(U16, filled=True), queue=ListOf(U32, filled=True), tallies=ListOf(U32, filled=True),
    pairs=ListOf(U32, filled=True), records=ListOf(Region, filled=True), route_output=ListOf(U64, filled=True), coaching_output=ListOf(U64, filled=True))

SHARED = (Cause.SIDES, Cause.CELLS, Cause.SPAN_OUTSIDE, Cause.SPAN_OF_NO_LENGTH, Cause.ELEVATION, Cause.REGIONS, Cause.PAIRS)


def rows_of(answer: Answer, output: ctypes.Array[Any]) -> list[Row] | Refusal:
    if answer.number:
        return Refusal(answer.number, answer.value)
    return [Row(number, Point(*ends[:2]), Point(*ends[2:])) for number, *ends in grouped(output[:ROW_NUMBERS * answer.value], ROW_NUMBERS)]


def two_desks(width: int, height: int, cells: bytes, spans: Sequence[Span], route: Desk, coaching: Desk, coaching_first: bool = False,
              records: int | None = None, pair_rows: int | None = None) -> Desks:
    """Cuts the map by its spans once, then runs both desks. Raises a refusal of what they share, 1, 2, 3, 5, 6 or 9; with as many records or pair rows as are
    given, 11 and 12 too. A refusal of a desk's own, 3, 4, 7, 20 or 8, stands in place of its rows."""
    room = Room(len(cells), len(spans), pair_rows)
    read = lent(U8, cells), lent(U64, flat(spans))
    desks = [(desk.pass_number, lent(U64, flat(desk.boundaries)), lent(U64, flat(desk.anchors))) for desk in (route, coaching)]
    outputs = [lent(U64, ROW_NUMBERS * len(desk.boundaries)) for desk in (route, coaching)]
    lent_records = lent(Region, 1 + 2 * len(spans) if records is None else records)

    def call() -> DesksAnswer:
        answer = TWO_DESKS(int(coaching_first), width, height, *read, *desks[0], *desks[1], *room.lists(), lent_records, *outputs)
        if answer.route.number in SHARED or (answer.route.number == Cause.ENTRIES and len(spans) > 256):
            answer.route.count()
        return answer

    try:
        answer = room.filled_by(call)
    except Refusal as refusal:
        if refusal.number != Cause.REGIONS or records is not None:
            raise
        # The labels are filled.
        lent_records = lent(Region, max(room.labels))
        answer = room.filled_by(call)
    regions = max(room.labels)
    return Desks(rows_of(answer.route, outputs[0]), rows_of(answer.coaching, outputs[1]), room.partition(regions),
                 [Region.from_buffer_copy(record) for record in lent_records[:regions]])
