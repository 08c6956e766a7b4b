"""Runner and guard on a graph, and on the kept graph of a map: who can force a win from every place, in how few moves, and by which region."""
from __future__ import annotations

import ctypes
import enum
from collections.abc import Iterable
from dataclasses import dataclass, replace
from typing import NamedTuple

from ._library import U8, U16, U32, U64, Function, ListOf, lent
from .kept import CallRoom, Region, Row
from .partition import Answer, Partition
from .refusal import Refusal
from .sheet import Sheet, grouped

VERDICT_NUMBERS = 3
MOST_GAME_REGIONS = 32
VERDICTS_LENGTH = VERDICT_NUMBERS * 2 * MOST_GAME_REGIONS ** 2


class Winner(enum.IntEnum):
    RUNNER = 1
    GUARD = 2


class Verdict(NamedTuple):
    """of a place, for all ways of play"""
    winner: Winner
    moves: int                      # the fewest of both sides in which the runner can force a win; 0 for the guard
    region: int                     # the least that serves a winner who is to move; 0 where play is over or the winner is not to move


class Game(NamedTuple):
    regions: int
    goal: int
    verdicts: list[Verdict]

    def at(self, runner: int, guard: int, runners_turn: bool) -> Verdict:
        """where both stand on these regions, from 1"""
        if not (1 <= runner <= self.regions and 1 <= guard <= self.regions):
            raise ValueError(f'{runner}, {guard}: the regions are 1 to {self.regions}')
        return self.verdicts[2 * ((runner - 1) * self.regions + guard - 1) + (not runners_turn)]


SOLVE_GAME = Function('jenwyllt_solve_game', Answer, regions=U64, pairs=ListOf(U32), goal=U64, verdicts=ListOf(U32, filled=True))


def verdicts_in(numbers: Iterable[int]) -> list[Verdict]:
    return [Verdict(Winner(winner), moves, region) for winner, moves, region in grouped(list(numbers), VERDICT_NUMBERS)]


def solve_game(regions: int, edges: Iterable[tuple[int, int]], goal: int) -> Game:
    """on a graph of up to 32 regions, numbered from 1; an edge that names another number is none. Refused 23 or 24"""
    verdicts = lent(U32, VERDICTS_LENGTH)
    count = SOLVE_GAME(regions, lent(U32, [number for edge in edges for number in edge]), goal, verdicts).count()
    return Game(regions, goal, verdicts_in(verdicts[:VERDICT_NUMBERS * count]))


class GameAnswer(ctypes.Structure):
    """number 0, the count of rows and the regions of the kept graph, or a refusal's number and place"""
    _fields_ = [('number', U64), ('value', U64), ('regions', U64)]
    number: int
    value: int
    regions: int


RUNNER_AND_GUARD = Function(
    'jenwyllt_runner_and_guard', GameAnswer, **{'pass': U64}, width=U64, height=U64, cells=ListOf(U8), spans=ListOf(U64), boundaries=ListOf(U64), anchors=ListOf(U64),
    goal=U64, labels=ListOf(U32, filled=True), masks=ListOf(U16, filled=True), queue=ListOf(U32, filled=True), tallies=ListOf(U32, filled=True),
    pairs=ListOf(U32, filled=True), records=ListOf(Region, filled=True), output=ListOf(U64, filled=True), verdicts=ListOf(U32, filled=True))


@dataclass(frozen=True)
class KeptGame:
    """runner and guard on the kept graph of a map"""
    game: Game
    rows: list[Row]                 # that the pass keeps, ascending by endpoints; numbers are those of the sheet
    boundaries: int                 # how many the map has
    partition: Partition            # by what is kept, in the order of the sheet: its regions are those of the game, and its pairs the edges
    records: list[Region]           # of each region of the partition, that of label 1 first


def runner_and_guard(sheet: Sheet, goal: int, records: int | None = None, pair_rows: int | None = None) -> KeptGame:
    """on the kept graph of a map, for the pass of its sheet. Refused 1 to 9, 16 where spans and boundaries are not one list, 23 or 24; with as many records or
    pair rows as are given, 11 and 12 too"""
    room, verdicts = CallRoom(sheet, records, pair_rows), lent(U32, VERDICTS_LENGTH)

    def call() -> GameAnswer:
        answer = RUNNER_AND_GUARD(sheet.pass_number, sheet.width, sheet.height, *room.read, goal, *room.filled(), verdicts)
        if answer.number:
            raise Refusal(answer.number, answer.value)
        return answer

    answer = room.filled_by(call)
    second = room.partition()
    return KeptGame(Game(answer.regions, goal, verdicts_in(verdicts[:VERDICT_NUMBERS * 2 * answer.regions ** 2])), room.rows(answer.value), len(sheet.boundaries),
                    replace(second, tallies=second.tallies[:answer.value]), room.region_records())
