"""The rendering of the list of separations: the separation as the Rust has it, and the exact square in rationals.

The square is the least value of a quadratic over the unit square, at its critical point or on an edge: not the way of the definitions, which take a cross
product and four feet.
"""
from __future__ import annotations

from collections.abc import Sequence
from fractions import Fraction

from ..refusal import Cause, Refusal
from ..separations import Separation
from ..sheet import MOST_ENTRIES, MOST_SIDE, Boundary, Span, bits_of, flat
from . import reference


def least_on_edge(a: int, b: int, c: int) -> Fraction:
    """the least of a x^2 - 2 b x + c for x from 0 to 1, where a is not negative, and 0 only if b is"""
    if b <= 0:
        return Fraction(c)
    if b >= a:
        return Fraction(a - 2 * b + c)
    return Fraction(c * a - b * b, a)


def exact_square(s: Span, t: Span) -> Fraction:
    """the least square of the distance of s.start + u (s.end - s.start) and t.start + v (t.end - t.start), u and v from 0 to 1"""
    dx, dy = s.end.x - s.start.x, s.end.y - s.start.y
    ex, ey = t.end.x - t.start.x, t.end.y - t.start.y
    gx, gy = s.start.x - t.start.x, s.start.y - t.start.y
    # a u^2 - 2 b u v + c v^2 + 2 d u - 2 e v + f
    a, b, c = dx * dx + dy * dy, dx * ex + dy * ey, ex * ex + ey * ey
    d, e, f = dx * gx + dy * gy, ex * gx + ey * gy, gx * gx + gy * gy
    edges = (least_on_edge(c, e, f), least_on_edge(c, e + b, f + a + 2 * d), least_on_edge(a, -d, f), least_on_edge(a, b - d, f + c - 2 * e))
    whole = a * c - b * b
    u, v = b * e - c * d, a * e - b * d
    if whole and 0 <= u <= whole and 0 <= v <= whole:
        return min(*edges, Fraction(f * whole - (c * d * d - 2 * b * d * e + a * e * e), whole))
    return min(edges)


def separations(width: int, height: int, boundaries: Sequence[Boundary]) -> list[Separation]:
    """as `jenwyllt.separations`; the square is in lowest terms"""
    if not (1 <= width <= MOST_SIDE and 1 <= height <= MOST_SIDE):
        raise Refusal(Cause.SIDES)
    if len(boundaries) > MOST_ENTRIES:
        raise Refusal(Cause.ENTRIES)
    unfit = reference.faulty_boundary(reference.Map(1, width, height, [], [], flat(boundaries), []))
    if unfit:
        raise Refusal(*unfit)
    found = []
    for j, larger in enumerate(boundaries):
        for i, smaller in enumerate(boundaries[:j]):
            square = exact_square(smaller.span, larger.span)
            found.append(Separation(i, j, bits_of(reference.segment_distance(smaller.span, larger.span)), square.numerator, square.denominator))
    return found
