"""The boundaries that a pass keeps."""
from __future__ import annotations

import ctypes
from collections.abc import Callable
from dataclasses import dataclass
from typing import Any, NamedTuple

from ._library import DOUBLE, SIZE, U8, U16, U32, U64, Function, ListOf, lent
from .partition import Answer, Made, Partition, Room
from .refusal import Cause, Refusal
from .sheet import Point, Sheet, flat, grouped

ROW_NUMBERS = 5


class Row(NamedTuple):
    """a boundary that is kept: its number from 0, and its endpoints, the smaller first"""
    number: int
    start: Point
    end: Point


class Region(ctypes.Structure):
    """the record of a region: how many cells it has, its edges in pixels, how many of them are ramps, which elevations occur (bit e stands for elevation e),
    and how many cells have elevation 0, 1, 2 and 3"""
    _fields_ = [('cells', SIZE), ('min_x', DOUBLE), ('min_y', DOUBLE), ('max_x', DOUBLE), ('max_y', DOUBLE), ('ramp_cells', SIZE), ('elevations', U8),
                ('elevation_counts', SIZE * 4)]

    def values(self) -> dict[str, Any]:
        """by name; the counts as a list"""
        each = {name: getattr(self, name) for name, *_ in self._fields_}
        return {name: list(value) if isinstance(value, ctypes.Array) else value for name, value in each.items()}

    def __eq__(self, other: object) -> bool:
        return isinstance(other, Region) and self.values() == other.values()

    def __repr__(self) -> str:
        return f'Region({", ".join(f"{name}={value!r}" for name, value in self.values().items())})'


@dataclass(frozen=True)
class Kept:
    """what a pass makes of a map"""
    rows: list[Row]                 # ascending by endpoints
    boundaries: int                 # how many the map has
    partition: Partition
    records: list[Region]           # of each region, that of label 1 first

    def printed(self) -> str:
        """as the program `keptlist` prints it"""
        return f'kept {len(self.rows)} of {self.boundaries}\n' + ''.join(f'{row.number} {" ".join(map(str, (*row.start, *row.end)))}\n' for row in self.rows)


KEPT_BOUNDARIES = Function(
    'jenwyllt_kept_boundaries', Answer, **{'pass': U64}, width=U64, height=U64, cells=ListOf(U8), spans=ListOf(U64), boundaries=ListOf(U64), anchors=ListOf(U64),
    labels=ListOf(U32, filled=True), masks=ListOf(U16, filled=True), queue=ListOf(U32, filled=True), tallies=ListOf(U32, filled=True),
    pairs=ListOf(U32, filled=True), records=ListOf(Region, filled=True), output=ListOf(U64, filled=True))


class CallRoom:
    """what a call on a map reads, and the lists that it fills. Without `records` or `pair_rows` there are as many in the end as it takes"""

    def __init__(self, sheet: Sheet, records: int | None = None, pair_rows: int | None = None):
        self.room = Room(len(sheet.cells), len(sheet.spans), pair_rows)
        self.read = lent(U8, sheet.cells), *(lent(U64, flat(entries)) for entries in (sheet.spans, sheet.boundaries, sheet.anchors))
        self.output = lent(U64, ROW_NUMBERS * len(sheet.boundaries))
        self.records = lent(Region, 1 + 2 * len(sheet.spans) if records is None else records)
        self.grows = records is None

    def filled(self) -> tuple[ctypes.Array[Any], ...]:
        return *self.room.lists(), self.records, self.output

    def lists(self) -> tuple[ctypes.Array[Any], ...]:
        return *self.read, *self.filled()

    def filled_by(self, call: Callable[[], Made]) -> Made:
        """what a call answers; where there are more regions than records, or more pairs than rows, and the room grows, the call is made again"""
        try:
            return self.room.filled_by(call)
        except Refusal as refusal:
            if refusal.number != Cause.REGIONS or not self.grows:
                raise
        # The labels are filled.
        self.records = lent(Region, max(self.room.labels))
        return self.room.filled_by(call)

    def rows(self, count: int) -> list[Row]:
        return [Row(number, Point(*ends[:2]), Point(*ends[2:])) for number, *ends in grouped(self.output[:ROW_NUMBERS * count], ROW_NUMBERS)]

    def partition(self) -> Partition:
        return self.room.partition(max(self.room.labels))

    def region_records(self) -> list[Region]:
        return [Region.from_buffer_copy(record) for record in self.records[:max(self.room.labels)]]


def kept_boundaries(sheet: Sheet, records: int | None = None, pair_rows: int | None = None) -> Kept:
    """cuts the map by its spans and runs its pass. Refused 1 to 9; with as many records or pair rows as are given, 11 and 12 too"""
    room = CallRoom(sheet, records, pair_rows)
    count = room.filled_by(lambda: KEPT_BOUNDARIES(sheet.pass_number, sheet.width, sheet.height, *room.lists()).count())
    return Kept(room.rows(count), len(sheet.boundaries), room.partition(), room.region_records())
