"""A line of play of runner and guard, by the table of verdicts.

A winner to move goes to the region that the table names. The table names none for one who cannot force a win: a guard then goes where the runner still needs the
most moves, staying where that is as good, and else to the least such region; a runner stays. Both only look at the place, so that play which comes to a place
again goes on for ever.
"""
from __future__ import annotations

import enum
from collections.abc import Sequence
from dataclasses import dataclass
from typing import NamedTuple

from .game import Game, Winner


class Place(NamedTuple):
    """where both stand, and who is to move"""
    runner: int
    guard: int
    runners_turn: bool


class End(enum.Enum):
    GOAL = 'goal'                   # the runner stands on it
    CAPTURE = 'capture'
    ENDLESS = 'endless'             # a place comes again


@dataclass(frozen=True)
class Play:
    places: list[Place]             # from the start to the end; of endless play up to the place that comes again, and that place once more
    end: End


def near(region: int, edges: Sequence[tuple[int, int]]) -> list[int]:
    """where a move from a region can lead, the region itself first, then ascending"""
    beside = {b if a == region else a for a, b in edges if region in (a, b)}
    return [region, *sorted(beside - {region})]


def moved(place: Place, region: int) -> Place:
    """whoever is to move goes there"""
    return Place(region, place.guard, False) if place.runners_turn else Place(place.runner, region, True)


def next_place(game: Game, edges: Sequence[tuple[int, int]], place: Place) -> Place:
    verdict = game.at(*place)
    if verdict.region:
        return moved(place, verdict.region)
    if place.runners_turn:
        return moved(place, place.runner)
    # max takes the first of those that are alike.
    return moved(place, max(near(place.guard, edges), key=lambda region: game.at(*moved(place, region)).moves))


def ended(game: Game, place: Place) -> End | None:
    """capture is judged before the goal"""
    if place.runner == place.guard:
        return End.CAPTURE
    return End.GOAL if place.runner == game.goal else None


def line_of_play(game: Game, edges: Sequence[tuple[int, int]], runner: int, guard: int) -> Play:
    """from where both stand, the runner to move"""
    places, passed = [Place(runner, guard, True)], set()
    while True:
        end = ended(game, places[-1])
        if end is None and places[-1] in passed:
            end = End.ENDLESS
        if end is not None:
            return Play(places, end)
        passed.add(places[-1])
        places.append(next_place(game, edges, places[-1]))


def winner_of(play: Play) -> Winner:
    return Winner.RUNNER if play.end is End.GOAL else Winner.GUARD
