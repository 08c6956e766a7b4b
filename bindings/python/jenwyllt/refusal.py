"""Why a call was not answered: the numbers of include/jenwyllt.h with a sentence each."""
from __future__ import annotations

import enum


class Cause(enum.IntEnum):
    """the number of a refusal, as `enum jenwyllt_refusal`"""
    SIDES = 1
    CELLS = 2
    ENTRIES = 3
    PASS = 4
    SPAN_OUTSIDE = 5
    SPAN_OF_NO_LENGTH = 6
    BOUNDARY = 7
    ANCHOR_OUTSIDE = 8
    ELEVATION = 9
    ROOM = 10
    REGIONS = 11
    PAIRS = 12
    RANGE = 13
    SHEET = 14
    RESULT = 15
    LISTS = 16
    ACCESSION = 17
    DATE = 18
    TERM = 19
    DESK = 20
    RANKED = 21
    TWO_LISTS = 22
    GRAPH = 23
    GOAL = 24


WORDS: dict[int, str] = {
    Cause.SIDES: 'a side is 0 or over 1,024 cells',
    Cause.CELLS: 'the cells are not width times height',
    Cause.ENTRIES: 'over 256 spans, boundaries or anchors, or the last one is unfinished',
    Cause.PASS: 'the pass is not 1, 2 or 3',
    Cause.SPAN_OUTSIDE: 'an endpoint of the span lies off the map',
    Cause.SPAN_OF_NO_LENGTH: 'the endpoints of the span are equal',
    Cause.BOUNDARY: 'the boundary has an endpoint off the map, or a width, kind, ramp id or elevation that is not allowed',
    Cause.ANCHOR_OUTSIDE: 'the anchor lies off the map',
    Cause.ELEVATION: 'the cell is walkable and of an elevation over 3',
    Cause.ROOM: 'a lent list is too short',
    Cause.REGIONS: 'there are more regions than records',
    Cause.PAIRS: 'there are more pairs of regions than rows',
    Cause.RANGE: 'an argument is neither zero nor of a magnitude from 2^-64 to 2^15',
    Cause.SHEET: 'the sheet is ill formed',
    Cause.RESULT: 'the result breaks a rule: pairs or rows do not ascend, or labels do not start each new number in turn up to the region count',
    Cause.LISTS: 'the span and the boundary of this number are not there both, or differ in an endpoint as written',
    Cause.ACCESSION: 'the accession record breaks a rule',
    Cause.DATE: 'a date of the term, or at the number of terms the day asked for, is not a day from 2000 to 2099',
    Cause.TERM: 'the term is empty or overlaps an earlier term of its map',
    Cause.DESK: "the desk's boundary and the shared span of this number are not one segment, or one of them is missing",
    Cause.RANKED: 'there are more proposals than rows of the ranked list',
    Cause.TWO_LISTS: 'the spans are not the endpoints of the boundaries as written, so that the sheet cannot be converted',
    Cause.GRAPH: 'there are more than 32 regions',
    Cause.GOAL: 'the goal is no region of the graph',
}


class Refusal(Exception):
    """a number, the place of the first fault (0 where the cause has none), and the cause in words"""

    def __init__(self, number: int, place: int = 0, words: str | None = None):
        self.number, self.place = int(number), int(place)
        self.words = words or WORDS.get(number, 'for a cause that this package does not know')
        super().__init__(self.number, self.place, self.words)

    def __str__(self) -> str:
        return f'refused {self.number} at {self.place}: {self.words}'

    def __eq__(self, other: object) -> bool:
        return isinstance(other, Refusal) and (self.number, self.place) == (other.number, other.place)

    def __hash__(self) -> int:
        return hash((self.number, self.place))
