"""An independent rendering in Python of runner and guard on the kept graph of a map (document 02, request 14): a pass of the package's rendering, the kept
boundaries partitioned anew, and the game solved by game_reference.py."""
from game_reference import MAX_REGIONS, ROOM, verdicts
from rest_reference import first_difference
from jenwyllt.unproved import reference
from jenwyllt.unproved.reference import EMPTY_RECORD, Map, groups, put


def kept_map(m):
    """the map of the boundaries that the pass keeps, as written, in list order"""
    numbers = sorted(row[0] for row in reference.results(m)['rows'])
    kept = [groups(m.boundaries, 9)[i] for i in numbers]
    return Map(m.pass_number, m.width, m.height, m.cells, [n for nine in kept for n in nine[:4]], [n for nine in kept for n in nine], m.anchors)


def refusal_before(m, lent, room):
    """checks 1 to 4, 16, and 5 to 10, as (number, place) or None"""
    refused = reference.early_refusal(m, lent, True)
    if refused and refused[0] <= 4:
        return refused
    place = first_difference(m)
    if place is not None:
        return 16, place
    return refused or ((10, 0) if room < ROOM else None)


def play(m, lent, goal, table):
    """plays on the kept graph, on the lent lists and the table of verdicts, which it fills; gives (number, value, regions)"""
    refused = refusal_before(m, lent, len(table))
    if refused:
        return (*refused, 0)
    output = list(lent.output)
    number, value = reference.call(m, lent)
    if number:
        return number, value, 0
    filled, second = reference.results(m), reference.results(kept_map(m))
    put(lent.labels, second['labels'])
    put(lent.tallies, [0] * (2 * len(filled['tallies'])))
    put(lent.tallies, [t for pair in second['tallies'] for t in pair])
    put(lent.pairs, [0] * (3 * len(filled['pairs'])))
    put(lent.pairs, [p for row in second['pairs'] for p in row])
    put(lent.records, [EMPTY_RECORD] * filled['regions'])
    put(lent.records, second['records'])
    regions = second['regions']
    if regions > MAX_REGIONS:
        return 23, 0, 0
    if not 1 <= goal <= regions:
        return 24, 0, 0
    put(table, verdicts(regions, [n for row in second['pairs'] for n in row[1:]], goal))
    assert output[5 * value:] == lent.output[5 * value:]
    return 0, value, regions
