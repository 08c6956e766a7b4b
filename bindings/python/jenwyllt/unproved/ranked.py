"""The rendering of the ranked junction list, over that of pass 3.

Written from the request and the Rust: a proposal is refused by what one taken before it reserves, asked of each by itself. A row is a tuple of six numbers:
kind (0 a union, 1 a bridge), boundary, two regions, 1 where it was taken, and the rank of what it was refused by.
"""
from __future__ import annotations

from ..ranked import MOST_PROPOSALS, RANKED_NUMBERS, Ranked, RankedProposal
from ..refusal import Refusal
from ..sheet import Sheet
from . import kept_boundaries, map_of, reference


def refuses(q: reference.JunctionProposal, p: reference.JunctionProposal) -> bool:
    """whether p is refused by what q alone, taken, reserves: the Rust's tests on its five sets"""
    if q.index in p.ports or p.ports & q.ports or p.index in q.ports:
        return True
    unions = set() if q.bridge else set(q.pair)
    pockets, exteriors = ({q.pair[0]}, {q.pair[1]}) if q.bridge else (set(), set())
    if not p.bridge:
        return bool(set(p.pair) & (unions | pockets | exteriors))
    pocket, exterior = p.pair
    return bool({pocket, exterior} & (unions | pockets)) or pocket in exteriors


def ranked_rows(boundaries: list, proposals: list[reference.JunctionProposal]) -> list[tuple[int, ...]]:
    """the rows of what reached the ranking"""
    order = sorted(proposals, key=lambda p: reference.junction_key(boundaries, p))
    rows, taken = [], []
    for rank, p in enumerate(order):
        against = [k for k, q in taken if refuses(q, p)]
        if not against:
            taken.append((rank, p))
        first, second = p.pair if p.bridge else sorted(p.pair)
        rows.append((int(p.bridge), p.index, first, second, int(not against), min(against, default=0)))
    return rows


def rows_of(m: reference.Map) -> list[tuple[int, ...]]:
    """of a map that no check refuses"""
    if len(m.boundaries) // 9 != len(m.spans) // 4:
        return []
    grid = reference.Grid(m.width, m.height, m.cells)
    labels, _, assessments = reference.partition_by_spans(grid, reference.groups(m.spans, 4))
    ctx = reference.Context(grid, labels, assessments, reference.groups(m.anchors, 2), None)
    boundaries = [reference.boundary_of(nine) for nine in reference.groups(m.boundaries, 9)]
    return ranked_rows(boundaries, reference.junction_proposals(boundaries, ctx))


def call(m: reference.Map, lent: reference.Lent, listed: list[int]) -> tuple[int, int, int]:
    """the call: fills what is lent, and gives number, value and proposals"""
    m.pass_number = 3
    output = list(lent.output)
    number, value = reference.call(m, lent)
    if number:
        return number, value, 0
    rows = rows_of(m)
    if len(listed) // RANKED_NUMBERS < len(rows):
        lent.output[:] = output
        listed[:] = [0] * len(listed)
        return 21, 0, 0
    reference.put(listed, [number for row in rows for number in row])
    return 0, value, len(rows)


def ranked_junctions(sheet: Sheet, rows: int = MOST_PROPOSALS) -> Ranked:
    """as `jenwyllt.ranked_junctions`"""
    third = Sheet(3, sheet.width, sheet.height, sheet.cells, sheet.spans, sheet.boundaries, sheet.anchors)
    kept = kept_boundaries(third)
    found = rows_of(map_of(third))
    if len(found) > rows:
        raise Refusal(21)
    return Ranked(kept, [RankedProposal.of_numbers(row) for row in found])
