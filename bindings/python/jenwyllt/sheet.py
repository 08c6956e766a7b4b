"""Maps as people and programs hold them, and sheets of kinds 1 and 3, a map as bytes."""
from __future__ import annotations

import ctypes
import enum
import struct
from collections.abc import Iterable, Iterator, Sequence
from dataclasses import dataclass
from typing import NamedTuple

from ._library import U8, U64, Function, ListOf, lent
from .refusal import Refusal

OLD_KIND, KIND = 1, 3               # with spans of their own, and with the boundaries as spans; the second is written now
MOST_SIDE = 1024
MOST_ENTRIES = 256
PIXELS_PER_CELL = 8
SPAN_NUMBERS, BOUNDARY_NUMBERS, ANCHOR_NUMBERS = 4, 9, 2


def bits_of(value: float) -> int:
    return struct.unpack('<Q', struct.pack('<d', value))[0]


def double_of(bits: int) -> float:
    return struct.unpack('<d', struct.pack('<Q', bits))[0]


class Point(NamedTuple):
    """in pixels, or of an anchor in cells"""
    x: int
    y: int


class Span(NamedTuple):
    """a line that cuts the map"""
    start: Point
    end: Point

    @classmethod
    def of_numbers(cls, four: Sequence[int]) -> Span:
        return cls(Point(*four[:2]), Point(*four[2:]))

    def numbers(self) -> tuple[int, ...]:
        return *self.start, *self.end


class Kind(enum.IntEnum):
    """which end of a ramp a boundary is"""
    NO_RAMP = 0
    LOWER = 1
    UPPER = 2


@dataclass(frozen=True)
class Boundary:
    """a choke boundary. A sheet can hold any numbers here; the call that runs a pass says which are allowed"""
    start: Point
    end: Point
    width_bits: int                 # of a double
    kind: int = Kind.NO_RAMP
    ramp: int = 0                   # its id
    lower: int = 0                  # the elevations of the ramp's ends
    upper: int = 0

    @classmethod
    def of(cls, start: Point, end: Point, width: float, kind: int = Kind.NO_RAMP, ramp: int = 0, lower: int = 0, upper: int = 0) -> Boundary:
        return cls(Point(*start), Point(*end), bits_of(width), kind, ramp, lower, upper)

    @classmethod
    def of_numbers(cls, nine: Sequence[int]) -> Boundary:
        return cls(Point(*nine[:2]), Point(*nine[2:4]), *nine[4:])

    @property
    def width(self) -> float:
        """in pixels"""
        return double_of(self.width_bits)

    @property
    def span(self) -> Span:
        return Span(self.start, self.end)

    def numbers(self) -> tuple[int, ...]:
        return *self.start, *self.end, self.width_bits, self.kind, self.ramp, self.lower, self.upper


@dataclass(frozen=True)
class Sheet:
    """what a sheet of kind 1 or 3 holds. Beyond its form nothing is tested: endpoints may lie off the map"""
    pass_number: int
    width: int                      # in cells
    height: int
    cells: bytes                    # row by row: 1 for walkable, plus 2 for ramp, plus 4 times the elevation
    spans: tuple[Span, ...] = ()
    boundaries: tuple[Boundary, ...] = ()
    anchors: tuple[Point, ...] = ()

    @property
    def pixels(self) -> Point:
        """its sides in pixels"""
        return Point(PIXELS_PER_CELL * self.width, PIXELS_PER_CELL * self.height)


def flat(entries: Iterable[Span | Boundary | Point]) -> list[int]:
    return [number for entry in entries for number in (entry if isinstance(entry, Point) else entry.numbers())]


def grouped(numbers: Sequence[int], size: int) -> Iterator[Sequence[int]]:
    return (numbers[k:k + size] for k in range(0, len(numbers) - len(numbers) % size, size))


# ---- bytes

def number_bytes(value: int) -> bytes:
    """groups of seven bits, least first, the top bit set on all but the last; the shortest form"""
    out = bytearray()
    while value > 127:
        out.append(value & 127 | 128)
        value >>= 7
    out.append(value)
    return bytes(out)


def sheet_bytes(sheet: Sheet) -> bytes:
    """the old sheet, of kind 1, every number in its shortest form: for maps whose spans are not their boundaries' endpoints"""
    lists: tuple[Sequence[Span] | Sequence[Boundary] | Sequence[Point], ...] = (sheet.spans, sheet.boundaries, sheet.anchors)
    numbers = [OLD_KIND, sheet.pass_number, sheet.width, sheet.height, *sheet.cells]
    for entries in lists:
        numbers += [len(entries), *flat(entries)]
    return b''.join(map(number_bytes, numbers))


class SheetAnswer(ctypes.Structure):
    """what a sheet opens with, or a refusal's number and place"""
    _fields_ = [(name, U64) for name in ('number', 'place', 'pass', 'width', 'height', 'spans', 'boundaries', 'anchors')]


READ_SHEET = Function('jenwyllt_read_sheet', SheetAnswer, bytes=ListOf(U8), cells=ListOf(U8, filled=True), spans=ListOf(U64, filled=True),
                      boundaries=ListOf(U64, filled=True), anchors=ListOf(U64, filled=True))


def read_sheet(data: bytes) -> Sheet:
    """reads a sheet; refused 14, 1 or 3, at the first fault"""
    # A number takes a byte or more, so no list is too short.
    def room(size: int) -> int:
        return size * min(MOST_ENTRIES, len(data) // size)
    cells = lent(U8, min(MOST_SIDE * MOST_SIDE, len(data)))
    spans, boundaries, anchors = (lent(U64, room(size)) for size in (SPAN_NUMBERS, BOUNDARY_NUMBERS, ANCHOR_NUMBERS))
    answer = READ_SHEET(lent(U8, data), cells, spans, boundaries, anchors)
    if answer.number:
        raise Refusal(answer.number, answer.place)
    return Sheet(
        getattr(answer, 'pass'), answer.width, answer.height, bytes(cells)[:answer.width * answer.height],
        tuple(map(Span.of_numbers, grouped(spans[:SPAN_NUMBERS * answer.spans], SPAN_NUMBERS))),
        tuple(map(Boundary.of_numbers, grouped(boundaries[:BOUNDARY_NUMBERS * answer.boundaries], BOUNDARY_NUMBERS))),
        tuple(Point(*two) for two in grouped(anchors[:ANCHOR_NUMBERS * answer.anchors], ANCHOR_NUMBERS)))
