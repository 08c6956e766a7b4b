"""A map at rest as a picture (SVG): as `drawing`, with the round in which each removed boundary went behind its number."""
from __future__ import annotations

import functools
from collections.abc import Callable

from .drawing import REMOVED_LOOK, Picture
from .rest import Rested, Round
from .sheet import Sheet


class RestPicture(Picture):
    """regions are those of the kept boundaries alone"""

    def __init__(self, sheet: Sheet, rested: Rested, rounds: list[Round], title: str | None = None):
        self.gone = {number: k for k, each in enumerate(rounds, 1) for numbers in each.removed for number in numbers}
        words = f'at rest: {len(rested.rows)} of {rested.boundaries} boundaries kept, {rested.rounds} round{"s" if rested.rounds > 1 else ""}'
        super().__init__(sheet, rested.partition, [row.number for row in rested.rows], title or words)

    def words_of(self, number: int) -> str:
        return super().words_of(number) + (f' r{self.gone[number]}' if number in self.gone else '')

    def legend(self) -> list[tuple[str, Callable[[float], None]]]:
        counts = [list(self.gone.values()).count(k) for k in range(1, max(self.gone.values(), default=0) + 1)]
        return super().legend() + [(f'went in round {k} ({count}): r{k}', functools.partial(self.line_sample, REMOVED_LOOK)) for k, count in enumerate(counts, 1)]
