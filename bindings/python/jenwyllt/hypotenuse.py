"""The correctly rounded hypotenuse."""
from __future__ import annotations

import ctypes

from ._library import DOUBLE, U64, Function
from .refusal import Refusal


class Outcome(ctypes.Structure):
    """number 0 and the root, or number 13 and 0"""
    _fields_ = [('number', U64), ('value', DOUBLE)]
    number: int
    value: float


HYPOTENUSE = Function('jenwyllt_hypotenuse', Outcome, x=DOUBLE, y=DOUBLE)
HYPOT = Function('jenwyllt_hypot', DOUBLE, x=DOUBLE, y=DOUBLE)


def hypotenuse(x: float, y: float) -> float:
    """the double nearest to the root of x² + y², ties to the even significand; refused 13 outside its range"""
    outcome = HYPOTENUSE(x, y)
    if outcome.number:
        raise Refusal(outcome.number)
    return outcome.value


def hypot(x: float, y: float) -> float:
    """the same for arguments that are known to be in range, and 0.0 outside it"""
    return HYPOT(x, y)
