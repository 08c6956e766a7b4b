"""The passes run to rest: passes 1, 2 and 3 by turns, until a round removes none."""
from __future__ import annotations

import ctypes
from collections.abc import Callable
from dataclasses import dataclass, replace

from ._library import U8, U16, U32, U64, Function, ListOf
from .kept import CallRoom, Region, Row, kept_boundaries
from .partition import Partition
from .refusal import Refusal
from .sheet import Boundary, Sheet

PASSES = 1, 2, 3


class RestAnswer(ctypes.Structure):
    """number 0, how many rows are kept and how many rounds were run; or a refusal's number and place, and 0"""
    _fields_ = [('number', U64), ('value', U64), ('rounds', U64)]
    number: int
    value: int
    rounds: int


@dataclass(frozen=True)
class Rested:
    """what is left of a map at rest"""
    rows: list[Row]                 # ascending by endpoints; numbers are those of the sheet
    rounds: int                     # the last, which removes none, among them
    boundaries: int                 # how many the map has
    partition: Partition            # by what is kept: its span k is row k
    records: list[Region]           # of each region of the partition, that of label 1 first


RUN_TO_REST = Function(
    'jenwyllt_run_to_rest', RestAnswer, width=U64, height=U64, cells=ListOf(U8), spans=ListOf(U64), boundaries=ListOf(U64), anchors=ListOf(U64),
    labels=ListOf(U32, filled=True), masks=ListOf(U16, filled=True), queue=ListOf(U32, filled=True), tallies=ListOf(U32, filled=True),
    pairs=ListOf(U32, filled=True), records=ListOf(Region, filled=True), output=ListOf(U64, filled=True))


def run_to_rest(sheet: Sheet, records: int | None = None, pair_rows: int | None = None) -> Rested:
    """runs the passes by turns until a round removes none; the pass of the sheet is not looked at. Refused 1 to 3, 16 where spans and boundaries are not one
    list, and 5 to 9; with as many records or pair rows as are given, 11 and 12 too"""
    room = CallRoom(sheet, records, pair_rows)

    def call() -> RestAnswer:
        answer = RUN_TO_REST(sheet.width, sheet.height, *room.lists())
        if answer.number:
            raise Refusal(answer.number, answer.value)
        return answer

    answer = room.filled_by(call)
    last = room.partition()
    return Rested(room.rows(answer.value), answer.rounds, len(sheet.boundaries), replace(last, tallies=last.tallies[:answer.value]), room.region_records())


# ---- the same by calls of the passes, which say what each of them removes

@dataclass(frozen=True)
class Round:
    """the numbers in the sheet of what each pass of a round removes"""
    removed: tuple[list[int], list[int], list[int]]

    def count(self) -> int:
        return sum(map(len, self.removed))


def canonical(boundary: Boundary) -> Boundary:
    """the smaller endpoint first"""
    return replace(boundary, start=min(boundary.start, boundary.end), end=max(boundary.start, boundary.end))


def kept_positions(sheet: Sheet, pass_number: int, boundaries: list[Boundary]) -> list[int]:
    """which of these boundaries, which serve as spans, the pass keeps"""
    cut = replace(sheet, pass_number=pass_number, spans=tuple(boundary.span for boundary in boundaries), boundaries=tuple(boundaries))
    return [row.number for row in kept_boundaries(cut).rows]


def by_turns(sheet: Sheet, progress: Callable[[int, int], None] = lambda rounds, kept: None) -> tuple[list[Round], list[Row]]:
    """the rounds of a map that `run_to_rest` accepts, and the rows that they leave: each pass is a call of its own, on what is kept so far in the order of
    rows. `progress` is told after each pass how many rounds have begun and how many boundaries are kept"""
    kept = sorted(((canonical(boundary), number) for number, boundary in enumerate(sheet.boundaries)), key=lambda each: (each[0].span, each[1]))
    rounds: list[Round] = []
    while not rounds or rounds[-1].count():
        removed: list[list[int]] = []
        for pass_number in PASSES:
            left = set(kept_positions(sheet, pass_number, [boundary for boundary, _ in kept]))
            removed.append(sorted(number for place, (_, number) in enumerate(kept) if place not in left))
            kept = [each for place, each in enumerate(kept) if place in left]
            progress(len(rounds) + 1, len(kept))
        rounds.append(Round((removed[0], removed[1], removed[2])))
    return rounds, [Row(number, boundary.start, boundary.end) for boundary, number in kept]
