"""Pairs of desks over one terrain, drawn from the maps of generate.py: desks that keep the rules, and desks and terrains with one fault or more."""
import random

import package  # noqa: F401
import generate
from desks_reference import Desk
from jenwyllt.unproved.hypotenuse import bits
from jenwyllt.unproved.reference import Lent, Map, groups

WIDTHS = (8.0, 16.0, 24.0, 7.5, 12.0, 11.0, 15.5)
OWN_FAULTS = ('unfinished', 'anchor', 'pass', 'width', 'kind', 'outside', 'moved', 'missing', 'more', 'away', 'output')
SHARED_FAULTS = ('side', 'cells', 'unfinished', 'outside', 'equal', 'elevation', 'labels', 'masks', 'queue', 'tallies', 'records', 'pairs')


def desk_on(r, m, nines):
    """a desk of its own on these boundaries: turned at will, some with other widths and ramps; other anchors; any pass"""
    own = []
    for nine in nines:
        nine = list(nine)
        if r.random() < 0.3:
            nine[:4] = nine[2:4] + nine[:2]
        if r.random() < 0.3:
            nine[4] = bits(r.choice(WIDTHS))
        if r.random() < 0.15:
            kind = r.randrange(3)
            nine[5:] = [kind, *((r.choice((1, 7)), r.randrange(4), r.randrange(4)) if kind else (0, 0, 0))]
        own.append(nine)
    anchors = [n for _ in range(r.choice((0, 0, 1, 2, 3))) for n in (r.randrange(m.width), r.randrange(m.height))]
    if r.random() < 0.4:
        anchors = list(m.anchors)
    return Desk(r.choice((1, 2, 3)), [n for nine in own for n in nine], anchors, [0] * (5 * len(own)))


def any_of(r, count):
    """the number of an entry"""
    return r.randrange(count) if count else 0


def own_fault(r, m, desk, k, which):
    """one fault of a desk's own lists, of boundary k where it is a boundary's"""
    n = len(desk.boundaries) // 9
    if which == 'unfinished':
        desk.boundaries.append(1)
    elif which == 'anchor':
        desk.anchors.append(1)
    elif which == 'pass':
        desk.pass_number = r.choice((0, 4, 2 ** 64 - 1))
    elif which == 'away':
        desk.anchors += [m.width, 0]
    elif which == 'output' and n:
        desk.output.pop()
    elif which == 'more':
        desk.boundaries += desk.boundaries[:9] or [0] * 9
        desk.output += [0] * 5
    elif n and which == 'missing':
        del desk.boundaries[9 * k:9 * k + 9]
    elif n and which == 'width':
        desk.boundaries[9 * k + 4] = r.choice((1 << 63, 0x7ff << 52, bits(65537.0)))
    elif n and which == 'kind':
        desk.boundaries[9 * k + 5] = 3
    elif n and which == 'outside':
        desk.boundaries[9 * k] = 8 * m.width + 1
    elif n and which == 'moved':
        at = 9 * k + r.randrange(4)
        desk.boundaries[at] += 1 if desk.boundaries[at] < 8 else -1


def shared_fault(r, m, lent, k, which):
    """one fault of what both share, of span k where it is a span's"""
    n = len(m.spans) // 4
    if which == 'side':
        m.width = r.choice((0, 1025))
    elif which == 'cells':
        m.cells.append(1)
    elif which == 'unfinished':
        m.spans.append(1)
    elif which == 'elevation':
        m.cells[r.randrange(len(m.cells))] = 17
    elif which == 'outside' and n:
        m.spans[4 * k] = 8 * m.width + 1
    elif which == 'equal' and n:
        m.spans[4 * k:4 * k + 2] = m.spans[4 * k + 2:4 * k + 4]
    elif which in ('labels', 'masks', 'queue', 'tallies') and getattr(lent, which):
        del getattr(lent, which)[-2:]
    elif which == 'records':
        del lent.records[r.randrange(2):]
    elif which == 'pairs':
        del lent.pairs[r.choice((0, 2)):]


def filled(r, count, most):
    return [r.randrange(most) for _ in range(count)]


def lend(r, m):
    """lists that are long enough, and hold anything"""
    n, spans, more = len(m.cells), len(m.spans) // 4, r.choice((0, 0, 3))
    record = (5, 1, 2, 3, 4, 6, 7, (8, 9, 10, 11))
    return Lent(filled(r, n + more, 1000), filled(r, n + more, 1000), filled(r, n + more, 1000), filled(r, 2 * spans + more, 1000),
                filled(r, 3 * (min(4 * n, 200) + 2 * spans) + more, 1000), [record] * (n + more), [])


def terrains(count, seed, most_cells):
    """(number, generator, map without boundaries, boundaries for the desks), of COUNT maps"""
    made = 0
    for k, _, m in generate.maps(100 * count + 1000, seed):
        if made == count:
            return
        if len(m.cells) > most_cells:
            continue
        nines = [nine for nine in groups(m.boundaries, 9) if tuple(nine[:2]) != tuple(nine[2:4])]
        made += 1
        yield k, random.Random(f'desks/{seed}/{k}'), Map(1, m.width, m.height, list(m.cells), [n for nine in nines for n in nine[:4]], [], m.anchors), nines


def drawn(count, seed, most_cells=2500):
    """(number, generator, map, what is lent, route desk, coaching desk), COUNT of them"""
    for k, r, m, nines in terrains(count, seed, most_cells):
        route, coaching = desk_on(r, m, nines), desk_on(r, m, nines)
        lent = lend(r, m)
        for desk in (route, coaching):
            desk.output = filled(r, len(desk.output) + r.choice((0, 0, 2)), 1000)
            while r.random() < 0.2:
                own_fault(r, m, desk, any_of(r, len(desk.boundaries) // 9), r.choice(OWN_FAULTS))
        while r.random() < 0.12:
            shared_fault(r, m, lent, any_of(r, len(m.spans) // 4), r.choice(SHARED_FAULTS))
        yield k, r, m, lent, route, coaching
