"""An independent rendering in Python of running the passes to rest: the passes of the package's rendering by turns.

Written from document 02, request 4, with lists of boundaries and no thought of how the code goes about it: every round runs
three passes, each on a map of its own that is partitioned anew.
"""
from jenwyllt.unproved import reference
from jenwyllt.unproved.reference import EMPTY_RECORD, Map, groups, put


def canonical_nine(nine):
    """a boundary with its lesser endpoint first"""
    first, second = sorted((tuple(nine[:2]), tuple(nine[2:4])))
    return (*first, *second, *nine[4:])


def starting_list(m):
    """(number as lent, nine numbers) in row order with canonical endpoints"""
    turned = [(i, canonical_nine(nine)) for i, nine in enumerate(groups(m.boundaries, 9))]
    return sorted(turned, key=lambda entry: (entry[1][:4], entry[0]))


def map_of(m, pass_number, entries):
    """the map of these boundaries, which serve as spans"""
    return Map(pass_number, m.width, m.height, m.cells, [n for _, nine in entries for n in nine[:4]],
               [n for _, nine in entries for n in nine], m.anchors)


def first_difference(m):
    """16: the place of the first entry that differs or that one list alone has, or None"""
    spans, ends = groups(m.spans, 4), [nine[:4] for nine in groups(m.boundaries, 9)]
    for i in range(max(len(spans), len(ends))):
        if i >= len(spans) or i >= len(ends) or tuple(spans[i]) != tuple(ends[i]):
            return i
    return None


def refusal_before(m, lent):
    """checks 1 to 3, 16, and 5 to 10, as (number, place) or None"""
    asked = Map(1, m.width, m.height, m.cells, m.spans, m.boundaries, m.anchors)
    refused = reference.early_refusal(asked, lent, True)
    if refused and refused[0] <= 3:
        return refused
    place = first_difference(m)
    return (16, place) if place is not None else refused


def rounds_of(m, run_pass):
    """The entries before each pass and after the last, round by round: a list of rounds, each a list of four lists.
    `run_pass` is given a map and says which positions of its list are kept."""
    entries, rounds = starting_list(m), []
    while True:
        steps = [entries]
        for pass_number in (1, 2, 3):
            entries = [entries[k] for k in run_pass(map_of(m, pass_number, entries))]
            steps.append(entries)
        rounds.append(steps)
        if len(steps[3]) == len(steps[0]):
            return rounds


def kept_positions(m):
    """by the rendering: the numbers of the rows, which ascend"""
    return [row[0] for row in reference.results(m)['rows']]


def run(m, lent, run_pass=kept_positions):
    """runs to rest on the lent lists, which it fills; gives (number, value, rounds)"""
    refused = refusal_before(m, lent)
    if refused:
        return (*refused, 0)
    start = map_of(m, 1, starting_list(m))
    first = reference.lend(start)
    first.records, first.pairs = list(lent.records), list(lent.pairs)
    number, place = reference.call(start, first)
    if number:
        lent.labels[:len(m.cells)] = first.labels
        lent.masks[:len(m.cells)] = lent.queue[:len(m.cells)] = [0] * len(m.cells)
        put(lent.tallies, first.tallies)
        if number == 12:
            lent.pairs[:] = first.pairs
        return number, place, 0
    rounds = rounds_of(m, run_pass)
    kept = rounds[-1][3]
    filled, last = reference.results(start), reference.results(map_of(m, 3, kept))
    n = len(m.cells)
    put(lent.labels, last['labels'])
    put(lent.masks, [0] * n)
    put(lent.queue, [0] * n)
    put(lent.tallies, [0] * (2 * len(filled['tallies'])))
    put(lent.tallies, [t for pair in last['tallies'] for t in pair])
    put(lent.pairs, [0] * (3 * len(filled['pairs'])))
    put(lent.pairs, [p for row in last['pairs'] for p in row])
    put(lent.records, [EMPTY_RECORD] * filled['regions'])
    put(lent.records, last['records'])
    put(lent.output, [n for number, nine in kept for n in (number, *nine[:4])])
    return 0, len(kept), len(rounds)
