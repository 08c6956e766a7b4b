"""The share behind dominance: the elevation of most cells of a region, and how many percent of them it has."""
from __future__ import annotations

import ctypes
from collections.abc import Sequence
from typing import NamedTuple

from ._library import BOOL, U32, U64, Function


class Share(NamedTuple):
    """count * 100 == percent * cells + remainder, with 0 <= remainder < cells"""
    percent: int
    remainder: int


class Dominance(NamedTuple):
    """the elevation of most cells, of equal counts the lower, and its share; without cells there is none"""
    elevation: int
    share: Share | None


class DominanceAnswer(ctypes.Structure):
    """percent and remainder are 0 where there is no share"""
    _fields_ = [('elevation', U64), ('has_share', BOOL), ('percent', U64), ('remainder', U64)]
    elevation: int
    has_share: bool
    percent: int
    remainder: int


DOMINANCE = Function('jenwyllt_dominance', DominanceAnswer, cells=U32, count_0=U32, count_1=U32, count_2=U32, count_3=U32)


def dominance(cells: int, counts: Sequence[int]) -> Dominance:
    """of so many cells, of which so many have elevation 0, 1, 2 and 3; each a number of 32 bits"""
    found = DOMINANCE(cells, *counts)
    return Dominance(found.elevation, Share(found.percent, found.remainder) if found.has_share else None)
