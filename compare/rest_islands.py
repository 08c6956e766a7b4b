"""Running to rest on pairs of maps with a common island, through the library.

    python3 rest_islands.py COUNT [--seed S]

Of each pair both maps have one size and the same island on their left: the same cells, anchors and boundaries, these in the same order. The remainder, behind
columns that are not walkable, is drawn for each map by itself, and its boundaries stand anywhere between those of the island. In half of the pairs each map's
list is then put into an order of its own and turned at will, where no two boundaries have the same endpoints, since the theorem takes the premises of the
starting lists too. The rows of the island must be alike and in the same order: endpoints agree, and so do the ranks among the island's boundaries, in the list
as lent or, where that was mixed, in the order of rows. Exit code 0 if all are.
"""
import argparse
import random
import sys

import package  # noqa: F401
import generate
from plan import spice
from jenwyllt import Boundary, Point, Refusal, Sheet, partition, run_to_rest
from jenwyllt.rest import canonical
from jenwyllt.unproved.reference import groups

GAP = 2                                          # columns between island and remainder


def part(r):
    """a small map whose boundaries serve as spans: width, height, rows of cells, boundaries, anchors"""
    m = spice(r, generate.small_plan(r)).finished()
    rows = [m.cells[y * m.width:(y + 1) * m.width] for y in range(m.height)]
    return m.width, m.height, rows, [Boundary.of_numbers(nine) for nine in groups(m.boundaries, 9)], [Point(*two) for two in groups(m.anchors, 2)]


def moved(boundary, columns):
    """a boundary so many columns further right"""
    x = 8 * columns
    return Boundary(Point(boundary.start.x + x, boundary.start.y), Point(boundary.end.x + x, boundary.end.y), *boundary.numbers()[4:])


def mixed(r, first, second):
    """both lists in one, each in its order"""
    places = sorted(r.sample(range(len(first) + len(second)), len(first)))
    out = list(second)
    for place, entry in zip(places, first):
        out.insert(place, entry)
    return out


def beside(r, island, remainder, size):
    """the sheet of both, and which of its boundaries are the island's, in order"""
    (left, _, rows, boundaries, anchors), (_, _, others, rest, more) = island, remainder
    width, height = size

    def row(of, y, long):
        return ([*of[y]] if y < len(of) else []) + [0] * (long - (len(of[y]) if y < len(of) else 0))
    cells = bytes(cell for y in range(height) for cell in (*row(rows, y, left + GAP), *row(others, y, width - left - GAP)))
    entries = mixed(r, [(b, True) for b in boundaries], [(moved(b, left + GAP), False) for b in rest])
    every = [*anchors, *(Point(x + left + GAP, y) for x, y in more)]
    return Sheet(1, width, height, cells, (), (), tuple(every)), entries


def shuffled(r, entries):
    r.shuffle(entries)
    return [(Boundary(b.end, b.start, *b.numbers()[4:]) if r.random() < 0.5 else b, ours) for b, ours in entries]


def sheet_of(sheet, entries):
    boundaries = tuple(b for b, _ in entries)
    return Sheet(1, sheet.width, sheet.height, sheet.cells, tuple(b.span for b in boundaries), boundaries, sheet.anchors)


def island_rows(sheet, entries, in_rows):
    """(rank, endpoints) of the kept rows whose boundaries cut a step of the island; None where the run is refused"""
    whole = sheet_of(sheet, entries)
    try:
        rested = run_to_rest(whole)
    except Refusal:
        return None
    cuts = partition(sheet.width, sheet.height, sheet.cells, whole.spans).tallies
    ours = [k for k, (_, of_island) in enumerate(entries) if of_island and cuts[k].removed]
    if in_rows:
        ours.sort(key=lambda k: (canonical(entries[k][0]).span, k))
    rank = {k: place for place, k in enumerate(ours)}
    return [(rank[row.number], row.start, row.end) for row in rested.rows if row.number in rank], rested.rounds, len(ours)


def main():
    a = argparse.ArgumentParser(description=__doc__, formatter_class=argparse.RawDescriptionHelpFormatter)
    a.add_argument('count', type=int)
    a.add_argument('--seed', default='1')
    options = a.parse_args()
    pairs = longer = unequal = removed = different = k = 0
    while pairs < options.count:
        r = random.Random(f'islands/{options.seed}/{k}')
        k += 1
        island, first, second = part(r), part(r), part(r)
        size = island[0] + GAP + max(first[0], second[0]), max(island[1], first[1], second[1])
        both = [beside(r, island, remainder, size) for remainder in (first, second)]
        ends = [canonical(b).span for b in island[3]]
        in_rows = len(set(ends)) == len(ends) and r.random() < 0.5
        if in_rows:
            both = [(sheet, shuffled(r, entries)) for sheet, entries in both]
        found = [island_rows(sheet, entries, in_rows) for sheet, entries in both]
        if None in found:
            continue
        pairs += 1
        (rows, rounds, count), (others, other_rounds, _) = found
        longer += max(rounds, other_rounds) > 1
        unequal += rounds != other_rounds
        removed += len(rows) < count
        if rows != others:
            different += 1
            if different < 5:
                print('differs:', options.seed, k - 1)
    print(f'{pairs} pairs, {longer} with two rounds or more, {unequal} with different rounds, {removed} with a boundary of the island removed, {different} different')
    return int(different > 0)


if __name__ == '__main__':
    sys.exit(main())
