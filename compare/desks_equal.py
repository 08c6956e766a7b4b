"""Calls for two desks with a span of equal endpoints, 6: alone, and beside every other refusal, in either order of the desks.

A call is made in two steps. First it gets the other faults, and the rendering must then refuse it with their number; then a span gets equal endpoints,
and so do the boundaries that agreed with it.
"""
from copy import deepcopy

import package  # noqa: F401
import desks_lists
import desks_reference

NOTHING = (0, 0)
SHARED = {'side': 1, 'cells': 2, 'unfinished': 3, 'elevation': 9, 'labels': 10, 'masks': 10, 'queue': 10, 'tallies': 10, 'records': 11, 'pairs': 12}
OWN = {'unfinished': 3, 'anchor': 3, 'pass': 4, 'width': 7, 'kind': 7, 'outside': 7, 'moved': 20, 'missing': 20, 'more': 20, 'away': 8, 'output': 10}
LEAST_SPANS = 3


def plans():
    """what a call gets: the number of its span of equal endpoints, faults as (what, entry, desks), and the numbers with which both desks are refused
    before the span is changed. The desks are those that have a fault of their own; () is a fault of what is shared."""
    for at in range(LEAST_SPANS):
        yield at, [], NOTHING
        yield at, [('outside', 1, ())], (5, 5)
    yield 0, [('equal', 2, ())], (6, 6)
    for which, number in SHARED.items():
        yield 1, [(which, 0, ())], (number, number)
    for which, number in OWN.items():
        for desks in ((0,), (1,), (0, 1)):
            yield 1, [(which, 0, desks)], tuple(number if i in desks else 0 for i in (0, 1))
    yield 1, [('elevation', 0, ()), ('queue', 0, ()), ('width', 0, (0,)), ('away', 0, (0, 1)), ('missing', 2, (1,))], (9, 9)
    yield 1, [('outside', 2, ()), ('elevation', 0, ()), ('pass', 0, (0, 1))], (5, 5)
    yield 2, [('outside', 0, ()), ('elevation', 0, ()), ('kind', 0, (0,)), ('output', 0, (1,))], (5, 5)


def segment(four):
    return {tuple(four[:2]), tuple(four[2:4])}


def make_equal(m, desks, at):
    """span AT has equal endpoints, and so has the boundary of each desk that was the same segment"""
    span = m.spans[4 * at:4 * at + 4]
    for desk in desks:
        if len(desk.boundaries) >= 9 * at + 9 and segment(desk.boundaries[9 * at:]) == segment(span):
            desk.boundaries[9 * at:9 * at + 4] = span[:2] * 2
    m.spans[4 * at:4 * at + 4] = span[:2] * 2


def one(r, m, nines, plan):
    """the call of a plan over this terrain, or None where its other faults do not show on it"""
    at, faults, numbers = plan
    desks, lent = [desks_lists.desk_on(r, m, nines) for _ in range(2)], desks_lists.lend(r, m)
    for which, k, faulty in faults:
        if not faulty:
            desks_lists.shared_fault(r, m, lent, k, which)
        for i in faulty:
            desks_lists.own_fault(r, m, desks[i], k, which)
    answers = desks_reference.two_desks(*deepcopy((m, lent, *desks)))
    if tuple(number for number, _ in answers) != numbers:
        return None
    make_equal(m, desks, at)
    return m, lent, *desks


def calls(most_cells, most_spans):
    """(order, map, what is lent, route desk, coaching desk): every plan with either desk first"""
    ground = desks_lists.terrains(100000, 'equal', most_cells)
    for plan in plans():
        for order in (0, 1):
            while True:
                _, r, m, nines = next(ground)
                made = one(r, m, nines, plan) if LEAST_SPANS <= len(nines) <= most_spans else None
                if made:
                    yield order, *made
                    break
