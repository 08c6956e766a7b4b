"""The regions of a map cut by spans."""
from __future__ import annotations

import ctypes
from collections.abc import Callable, Sequence
from dataclasses import dataclass
from typing import Any, NamedTuple, TypeVar

from ._library import U8, U16, U32, U64, Function, ListOf, lent
from .refusal import Cause, Refusal
from .sheet import Span, flat, grouped

TALLY_NUMBERS, PAIR_NUMBERS = 2, 3
Made = TypeVar('Made')


class Tally(NamedTuple):
    """how many steps a span removes, and how many of them join two regions"""
    removed: int
    separated: int


class Pair(NamedTuple):
    """two regions that a span parts"""
    span: int
    smaller: int
    larger: int


@dataclass(frozen=True)
class Partition:
    regions: int
    labels: list[int]               # of each cell, from 1 in the order of the regions' first cells; 0 where a cell is not walkable
    tallies: list[Tally]            # of each span
    pairs: list[Pair]               # ascending, each pair of a span once


class Answer(ctypes.Structure):
    """number 0 and a count, or a refusal's number and place"""
    _fields_ = [('number', U64), ('value', U64)]
    number: int
    value: int

    def count(self) -> int:
        if self.number:
            raise Refusal(self.number, self.value)
        return self.value


PARTITION = Function('jenwyllt_partition', Answer, width=U64, height=U64, cells=ListOf(U8), spans=ListOf(U64), labels=ListOf(U32, filled=True),
                     masks=ListOf(U16, filled=True), queue=ListOf(U32, filled=True), tallies=ListOf(U32, filled=True), pairs=ListOf(U32, filled=True))


class Room:
    """the lists of a partition, lent to be filled. Without `pair_rows` there are two rows a span at first, and as many as it takes in the end"""

    def __init__(self, cells: int, spans: int, pair_rows: int | None = None):
        self.labels, self.masks, self.queue = lent(U32, cells), lent(U16, cells), lent(U32, cells)
        self.tallies = lent(U32, TALLY_NUMBERS * spans)
        self.pairs = lent(U32, PAIR_NUMBERS * (2 * spans if pair_rows is None else pair_rows))
        self.grows = pair_rows is None

    def lists(self) -> tuple[ctypes.Array[Any], ...]:
        return self.labels, self.masks, self.queue, self.tallies, self.pairs

    def filled_by(self, call: Callable[[], Made]) -> Made:
        """what a call answers; where there are more pairs than rows and the room grows, the call is made again"""
        try:
            return call()
        except Refusal as refusal:
            if refusal.number != Cause.PAIRS or not self.grows:
                raise
        # The tallies are filled, and a span has at most one pair for each step that joins two regions.
        self.pairs = lent(U32, PAIR_NUMBERS * sum(self.tallies[1::TALLY_NUMBERS]))
        return call()

    def partition(self, regions: int) -> Partition:
        # No label of a pair is 0, so a row that stayed zero stands behind the last.
        rows = [Pair(*three) for three in grouped(self.pairs[:], PAIR_NUMBERS)]
        return Partition(regions, self.labels[:], [Tally(*two) for two in grouped(self.tallies[:], TALLY_NUMBERS)], [row for row in rows if row.smaller])


def partition(width: int, height: int, cells: bytes, spans: Sequence[Span]) -> Partition:
    """cuts a map by spans; a cell is one byte, odd where it is walkable. Refused 1, 2, 3, 5 or 6"""
    room = Room(len(cells), len(spans))
    lent_cells, lent_spans = lent(U8, cells), lent(U64, flat(spans))
    return room.partition(room.filled_by(lambda: PARTITION(width, height, lent_cells, lent_spans, *room.lists()).count()))
