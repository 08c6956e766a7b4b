"""How far the boundaries of a map are apart: the separation that pass 1 works out, and the exact square of the distance."""
from __future__ import annotations

from collections.abc import Sequence
from fractions import Fraction
from typing import NamedTuple

from ._library import U64, Function, ListOf, lent
from .partition import Answer
from .sheet import Boundary, double_of, flat, grouped

SEPARATION_NUMBERS = 5
BOUND = Fraction(1, 2 ** 32)        # how far a separation can be off, in pixels; a theorem says so
BOUND_WORDS = '2^-32'


class Separation(NamedTuple):
    """of two boundaries, by their numbers from 0"""
    smaller: int
    larger: int
    bits: int                       # of the separation as a double
    numerator: int                  # of the exact square; not in lowest terms
    denominator: int

    @property
    def value(self) -> float:
        """in pixels; 0.0 exactly when the two share a point"""
        return double_of(self.bits)

    @property
    def square(self) -> Fraction:
        """the exact square of the distance; its root is within BOUND of the value"""
        return Fraction(self.numerator, self.denominator)


SEPARATIONS = Function('jenwyllt_separations', Answer, width=U64, height=U64, boundaries=ListOf(U64), output=ListOf(U64, filled=True))


def pair_count(boundaries: int) -> int:
    return boundaries * (boundaries - 1) // 2


def separations(width: int, height: int, boundaries: Sequence[Boundary]) -> list[Separation]:
    """of each two boundaries on a map of these sides, by the larger number, then the smaller. Refused 1, 3 or 7"""
    output = lent(U64, SEPARATION_NUMBERS * pair_count(len(boundaries)))
    count = SEPARATIONS(width, height, lent(U64, flat(boundaries)), output).count()
    return [Separation(*five) for five in grouped(output[:SEPARATION_NUMBERS * count], SEPARATION_NUMBERS)]
