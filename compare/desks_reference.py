"""An independent rendering in Python of two desks over one partition, from document 02, request 9.

The terrain is partitioned once; each desk then has its own checks and its own pass, over those labels, tallies, pairs and records. Nothing here
calls the rendering of a whole call.
"""
from dataclasses import dataclass, field

from jenwyllt.unproved import reference
from jenwyllt.unproved.reference import Context, Grid, Map, boundary_of, groups, put, record_of


@dataclass
class Desk:
    pass_number: int
    boundaries: list
    anchors: list
    output: list = field(default_factory=list)


def unfinished(numbers, size):
    return len(numbers) % size or len(numbers) // size > reference.MOST


def shared_refusal(m, lent):
    """1, 2, 3 of the spans, 5 and 6, 9, 10 of the shared lists, as (number, place) or None; 11 and 12 come from the partition"""
    if not (1 <= m.width <= 1024 and 1 <= m.height <= 1024):
        return 1, 0
    if len(m.cells) != m.width * m.height:
        return 2, 0
    if unfinished(m.spans, 4):
        return 3, 0
    fault = reference.faulty_span(m)
    if fault:
        return fault
    for i, cell in enumerate(m.cells):
        if cell & 1 and cell >> 2 >= 4:
            return 9, i
    n = len(m.cells)
    if min(len(lent.labels), len(lent.masks), len(lent.queue)) < n or len(lent.tallies) < 2 * (len(m.spans) // 4):
        return 10, 0
    return None


def first_astray(m, desk):
    """20: the first number at which boundary and shared span are not one segment, or at which one of them is missing"""
    spans, ends = [{tuple(s[:2]), tuple(s[2:])} for s in groups(m.spans, 4)], [{tuple(b[:2]), tuple(b[2:4])} for b in groups(desk.boundaries, 9)]
    for i in range(max(len(spans), len(ends))):
        if i >= len(spans) or i >= len(ends) or spans[i] != ends[i]:
            return i
    return None


def own_refusal(m, desk):
    """3 of boundaries and anchors, 4, 7, 20, 8, 10 of the output"""
    if unfinished(desk.boundaries, 9) or unfinished(desk.anchors, 2):
        return 3, 0
    if desk.pass_number not in (1, 2, 3):
        return 4, 0
    fault = reference.faulty_boundary(Map(desk.pass_number, m.width, m.height, m.cells, m.spans, desk.boundaries, desk.anchors))
    if fault:
        return fault
    astray = first_astray(m, desk)
    if astray is not None:
        return 20, astray
    for i, (x, y) in enumerate(groups(desk.anchors, 2)):
        if x >= m.width or y >= m.height:
            return 8, i
    if len(desk.output) < 5 * (len(desk.boundaries) // 9):
        return 10, 0
    return None


def serve(m, desk, grid, labels, assessments):
    """one desk over the partition: its answer; its output is filled where it is accepted"""
    refused = own_refusal(m, desk)
    if refused:
        return refused
    ctx = Context(grid, labels, assessments, groups(desk.anchors, 2))
    rows = reference.PASSES[desk.pass_number]([boundary_of(nine) for nine in groups(desk.boundaries, 9)], ctx)
    put(desk.output, [number for row in rows for number in row])
    return 0, len(rows)


def two_desks(m, lent, route, coaching, coaching_first=False):
    """Runs both desks; gives the answers of route desk and coaching desk. Of the map only sides, cells and spans are looked at, of what is lent
    all but the output: each desk has its own."""
    refused = shared_refusal(m, lent)
    if refused:
        return refused, refused
    n, spans, grid = len(m.cells), groups(m.spans, 4), Grid(m.width, m.height, m.cells)
    labels, regions, assessments = reference.partition_by_spans(grid, spans)
    pairs = [(i, a, b) for i, entry in enumerate(assessments) for a, b in entry.region_pairs]
    put(lent.labels, labels)
    put(lent.masks, [0] * n)
    put(lent.queue, [0] * n)
    if regions > len(lent.records):
        put(lent.tallies, [0] * (2 * len(spans)))
        return (11, 0), (11, 0)
    put(lent.tallies, [count for entry in assessments for count in (entry.removed_edge_count, entry.separated_edge_count)])
    if len(pairs) > len(lent.pairs) // 3:
        put(lent.pairs, [0] * len(lent.pairs))
        return (12, 0), (12, 0)
    put(lent.pairs, [number for row in pairs for number in row])
    stats = Context(grid, labels, assessments, []).stats
    put(lent.records, [record_of(stats[region]) for region in range(1, regions + 1)])
    answers = {}
    for desk in ((coaching, route) if coaching_first else (route, coaching)):
        answers[id(desk)] = serve(m, desk, grid, labels, assessments)
    return answers[id(route)], answers[id(coaching)]
