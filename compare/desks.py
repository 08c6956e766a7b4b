"""Two desks over one partition: the library against the rendering in Python, and each desk against a run with its lists alone.

    python3 desks.py COUNT [--seed S] [--rendering]

COUNT fresh pairs of desks, faulty ones among them. Of each pair both orders are run, and each desk once more beside another desk; answers, outputs and
every shared list are compared with the rendering's, and an accepted desk's with the call of its pass with its lists alone. With --rendering no library is
asked: the rendering is held against itself and the run alone. The first differences are printed. Exit code 0 if there is none.
"""
import argparse
import sys
from collections import Counter

import package  # noqa: F401
import desks_lists
import desks_reference
from desks_reference import Desk
from jenwyllt._library import U8, U16, U32, U64, lent as array
from jenwyllt.desks import TWO_DESKS
from jenwyllt.kept import Region
from jenwyllt.unproved import reference
from jenwyllt.unproved.hypotenuse import bits, double
from jenwyllt.unproved.reference import LENT, Map

SHARED = LENT[:-1]


def copied(desk):
    return Desk(desk.pass_number, list(desk.boundaries), list(desk.anchors), list(desk.output))


def by_rendering(m, lent, route, coaching, order):
    return desks_reference.two_desks(m, lent, route, coaching, bool(order))


def region(record):
    cells, *edges, ramps, mask, counts = record
    return Region(cells, *map(double, edges), ramps, mask, tuple(counts))


def record(r):
    return (r.cells, *(bits(edge) for edge in (r.min_x, r.min_y, r.max_x, r.max_y)), r.ramp_cells, r.elevations, tuple(r.elevation_counts))


def by_library(m, lent, route, coaching, order):
    """as the rendering: fills what is lent and both outputs"""
    lists = [array(U32, lent.labels), array(U16, lent.masks), array(U32, lent.queue), array(U32, lent.tallies), array(U32, lent.pairs),
             array(Region, [region(r) for r in lent.records])]
    outputs = [array(U64, desk.output) for desk in (route, coaching)]
    own = [(desk.pass_number, array(U64, desk.boundaries), array(U64, desk.anchors)) for desk in (route, coaching)]
    answer = TWO_DESKS(order, m.width, m.height, array(U8, m.cells), array(U64, m.spans), *own[0], *own[1], *lists, *outputs)
    for name, held in zip(SHARED, lists, strict=True):
        setattr(lent, name, [record(r) for r in held] if name == 'records' else held[:])
    route.output, coaching.output = (output[:] for output in outputs)
    return (answer.route.number, answer.route.value), (answer.coaching.number, answer.coaching.value)


def outcome(run, m, lent, route, coaching, order=0):
    """all that a call answers and leaves"""
    lent, route, coaching = lent.copy(), copied(route), copied(coaching)
    answers = run(m, lent, route, coaching, order)
    return [*zip(answers, (route.output, coaching.output), strict=True), [getattr(lent, name) for name in SHARED]]


def alone(m, lent, desk):
    """the same of a run with its lists alone"""
    lent, own = lent.copy(), copied(desk)
    lent.output = own.output
    answer = reference.call(Map(own.pass_number, m.width, m.height, m.cells, m.spans, own.boundaries, own.anchors), lent)
    return (answer, lent.output), [getattr(lent, name) for name in SHARED]


def faults(run, m, lent, route, coaching, other):
    """what differs, in words"""
    first = outcome(by_rendering, m, lent, route, coaching)
    for order in (0, 1, 7):
        if outcome(run, m, lent, route, coaching, order) != first:
            yield f'order {order}'
    for place, (pair, kept) in enumerate((((route, other), first[0]), ((other, coaching), first[1]))):
        swapped = outcome(run, m, lent, *pair)
        if swapped[place] != kept or swapped[2] != first[2]:
            yield f'desk {place} beside another'
        if swapped != outcome(by_rendering, m, lent, *pair):
            yield 'the other desk'
    for desk, said in zip((route, coaching), first, strict=False):
        if said[0][0] == 0 and alone(m, lent, desk) != (said, first[2]):
            yield 'the run alone'


def main():
    a = argparse.ArgumentParser(description=__doc__, formatter_class=argparse.RawDescriptionHelpFormatter)
    a.add_argument('count', type=int)
    a.add_argument('--seed', default='1')
    a.add_argument('--rendering', action='store_true')
    options = a.parse_args()
    run = by_rendering if options.rendering else by_library
    numbers, different = Counter(), 0
    for k, r, m, lent, route, coaching in desks_lists.drawn(options.count, options.seed):
        other = desks_lists.desk_on(r, m, [n[:9] for n in reference.groups(route.boundaries, 9)]) if m.width and r.random() < 0.7 else Desk(9, [3], [], [])
        for answer, _ in outcome(by_rendering, m, lent, route, coaching)[:2]:
            numbers[answer[0]] += 1
        found = sorted(set(faults(run, m, lent, route, coaching, other)))
        different += bool(found)
        if found and different < 5:
            print('differs:', options.seed, k, found)
    print(options.count, 'pairs of desks,', different, 'different; answers by number:', dict(sorted(numbers.items())))
    return int(different > 0)


if __name__ == '__main__':
    sys.exit(main())
