"""Cases for crates/areas_replay (the partition alone) and crates/topology_replay (the call that runs a pass): stored maps, and what is passed on and lent."""
from dataclasses import dataclass, replace
from itertools import combinations

import package  # noqa: F401
from jenwyllt.unproved.hypotenuse import bits
from jenwyllt.unproved.reference import Map, groups

BEYOND = 5                                       # so many entries more than needed are lent
RECORD, ROW, BOUNDARY = 11, 5, 9                 # numbers of each
MOST = 256
INFINITY, SIGN = 0x7FF << 52, 1 << 63


@dataclass
class Case:
    """a map with its stored answer, if it has one; pass, sides and how much of its lists are passed on; the lengths of the lists that are lent"""
    sheet: Map
    stored: dict
    pass_number: int
    width: int
    height: int
    cells: int
    spans: int
    boundaries: int
    anchors: int
    labels: int
    masks: int
    queue: int
    tallies: int
    pairs: int
    records: int
    output: int


def case_of(m, stored, whole, beyond=BEYOND):
    """what a map needs and so many entries beyond, but a single record; nothing that only a pass needs where the partition alone is asked for"""
    n = len(m.cells)
    lent = [n + beyond] * 3 + [len(stored[word]) + beyond for word in ('tallies', 'pairs')]
    if not whole:
        return Case(m, stored, 0, m.width, m.height, n, len(m.spans), 0, 0, *lent, 0, 0)
    room, output = max(stored['labels']) + bool(beyond), ROW * len(m.boundaries) // BOUNDARY + beyond
    return Case(m, stored, m.pass_number, m.width, m.height, n, len(m.spans), len(m.boundaries), len(m.anchors), *lent, room, output)


def with_entries(case, name, entries):
    """other spans, boundaries or anchors, of which one is refused: nothing is stored of them"""
    numbers = [n for entry in entries for n in entry]
    changed = {name: len(numbers)}
    if name == 'spans':
        changed['tallies'] = 2 * len(entries) + BEYOND
    return replace(case, sheet=replace(case.sheet, **{name: numbers}), stored=None, **changed)


def with_cell(case, place, cell):
    cells = list(case.sheet.cells)
    cells[place] = cell
    return replace(case, sheet=replace(case.sheet, cells=cells), stored=None)


# ---- entries that are refused

def faulty_spans(case):
    right, bottom = 8 * case.width, 8 * case.height
    return [(right + 1, 0, 0, 8), (0, bottom + 1, 8, 8), (0, 0, right + 1, 8), (8, 0, 0, bottom + 1), (8, 8, 8, 8)]


def faulty_boundaries(case):
    fits = (0, 0, 8, 8, bits(8.0), 1, 7, 0, 1)
    faults = [(4, width) for width in (INFINITY, INFINITY + 1, SIGN, bits(-8.0), bits(65536.0) + 1)]
    faults += [(k, 8 * (case.width, case.height)[k % 2] + 1) for k in range(4)]
    faults += [(5, 3), (6, 1 << 32), (7, 8), (8, 8), (5, 0)]
    return [fits[:k] + (n,) + fits[k + 1:] for k, n in faults] + [(0, 0, 8, 8, bits(8.0), 0) + tail for tail in ((1, 0, 0), (0, 1, 0), (0, 0, 1))]


def faulty_anchors(case):
    return [(case.width, 0), (0, case.height), (1 << 63, 0)]


FAULTY = {'spans': (4, faulty_spans), 'boundaries': (9, faulty_boundaries), 'anchors': (2, faulty_anchors)}


def faulty_entries(case, names):
    """each fault in front, and behind a first sound entry"""
    for name in names:
        size, faults = FAULTY[name]
        sound = groups(getattr(case.sheet, name), size)
        for fault in faults(case):
            yield with_entries(case, name, [fault] + sound)
            yield with_entries(case, name, sound[:1] + [fault] + sound[1:])


# ---- a case with the cause of each number; applied from the last to the first, any two go together

def in_front(name, place):
    size, faults = FAULTY[name]
    return lambda case: with_entries(case, name, [faults(case)[place]] + groups(getattr(case.sheet, name), size))


def behind(name, place):
    size, faults = FAULTY[name]
    return lambda case: with_entries(case, name, groups(getattr(case.sheet, name), size) + [faults(case)[place]])


CAUSES = {
    1: lambda case: replace(case, width=0),
    2: lambda case: replace(case, cells=case.cells - 1),
    3: lambda case: replace(case, spans=case.spans - 1),
    4: lambda case: replace(case, pass_number=4),
    5: in_front('spans', 0),
    6: behind('spans', -1),
    7: in_front('boundaries', 0),
    8: in_front('anchors', 0),
    9: lambda case: with_cell(case, 0, 17),
    10: lambda case: replace(case, labels=0),
    11: lambda case: replace(case, records=0),
    12: lambda case: replace(case, pairs=0),
}
OF_PARTITION = (1, 2, 3, 5, 6, 10, 12)


def with_causes(case, numbers):
    for number in sorted(numbers, reverse=True):
        case = CAUSES[number](case)
    return case


# ---- cases of one map

def short_of_room(case, whole):
    """one record fewer than there are regions, and one row fewer than there are pairs"""
    if whole and case.stored['records']:
        yield replace(case, records=len(case.stored['records']) // RECORD - 1)
    if case.stored['pairs']:
        yield replace(case, pairs=len(case.stored['pairs']) - 1)


def variants(case, whole):
    """lists that are just long enough, and one entry short; each cause of a refusal; and any two of them"""
    exact = case_of(case.sheet, case.stored, whole, 0)
    lent = ['labels', 'masks', 'queue', 'tallies', 'pairs'] + ['records', 'output'] * whole
    yield exact
    yield from (replace(exact, **{name: getattr(exact, name) - 1}) for name in lent)
    yield replace(exact, pairs=exact.pairs + 2)
    for sides in ((0, case.height), (case.width, 0), (1025, case.height), (case.width, 1025), (case.width + 1, case.height)):
        yield replace(case, width=sides[0], height=sides[1])
    yield from (replace(case, cells=n) for n in (case.cells - 1, case.cells + 1, 0))
    read = ['spans'] + ['boundaries', 'anchors'] * whole
    for name in read:
        size, _ = FAULTY[name]
        yield from (replace(case, **{name: n}) for n in (getattr(case, name) + 1, size * (MOST + 1), size - 1))
    yield from faulty_entries(case, read)
    spans = faulty_spans(case)
    for pair in ((spans[-1], spans[0]), (spans[0], spans[-1])):          # 5 and 6 span by span
        yield with_entries(case, 'spans', pair)
    yield with_entries(case, 'spans', [spans[0][:2] * 2])                # and 5 first
    if whole:
        yield from (replace(case, pass_number=n) for n in (0, 4, 65535))
        yield from (with_cell(case, place, cell) for place, cell in ((0, 17), (-1, 19), (case.cells // 2, 255)))
        heights = [252 if cell == 0 else cell for cell in case.sheet.cells]
        yield replace(case, sheet=replace(case.sheet, cells=heights))    # a cell that is not walkable has any elevation
    numbers = CAUSES if whole else OF_PARTITION
    yield from (with_causes(case, pair) for pair in combinations(numbers, 2))
    yield with_causes(case, numbers)
