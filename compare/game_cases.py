"""Maps to store for runner and guard: corridors of a chosen count of regions, goals out of reach, every refusal alone and in competition, and drawn ones."""
import random

import package  # noqa: F401
import generate
from game_call_reference import kept_map
from game_maps import Call, goal_of, many_rooms
from game_reference import ROOM
from jenwyllt.unproved import reference
from jenwyllt.unproved.hypotenuse import bits
from jenwyllt.unproved.reference import EMPTY_RECORD, Lent, Map
from rest import one_list

BEFORE = 60_000                                         # every number of a lent list before the call
RECORD_BEFORE = (9, *EMPTY_RECORD[1:])                  # and every record
SMALL = 120                                             # cells of a drawn map
FLAT, FOOT = 0, 1                                       # kinds of a boundary: without a ramp, at its lower end
EIGHT_WIDE = bits(8.0)


def corridor(cells, mouth=False, blocked=()):
    """cells in a row, each a region, for pass 1; with `mouth` the last boundary is a ramp's and the one before it its mouth, which goes"""
    boundaries = []
    for x in range(1, cells):
        ramp = (FOOT, 7, 0, 1) if mouth and x == cells - 1 else (FLAT, 0, 0, 0)
        boundaries += [8 * x, 0, 8 * x, 8, EIGHT_WIDE, *ramp]
    return Map(1, cells, 1, [0 if x in blocked else 1 for x in range(cells)], spans_of(boundaries), boundaries, [])


def spans_of(boundaries):
    return [n for nine in reference.groups(boundaries, 9) for n in nine[:4]]


def lists_for(m, records=None, pair_rows=None):
    """just long enough, but for records and pair rows where they are given"""
    n, spans = len(m.cells), len(m.spans) // 4
    whole = records is None or pair_rows is None
    cut = reference.results(Map(1, m.width, m.height, m.cells, m.spans, [], [])) if whole else None
    records = cut['regions'] if records is None else records
    pair_rows = len(cut['pairs']) if pair_rows is None else pair_rows
    lengths = n, n, n, 2 * spans, 3 * pair_rows, records, 5 * (len(m.boundaries) // 9)
    return Lent(*([RECORD_BEFORE if k == 5 else BEFORE] * length for k, length in enumerate(lengths)))


# ---- faults, each a change of a call

def short(name):
    def change(call):
        getattr(call.lists, name).pop()
    return change


def entry(at, number):
    """a number of span 1 and of boundary 1 both, so that they stay one list"""
    def change(call):
        call.map.spans[4 + at] = call.map.boundaries[9 + at] = number
    return change


def no_length(call):
    for at in (0, 1):
        entry(at, call.map.spans[6 + at])(call)


def turned(call):
    call.map.spans[8:12] = call.map.spans[10:12] + call.map.spans[8:10]


def put(name, at, number):
    def change(call):
        getattr(call.map, name)[at] = number
    return change


def told(name, number):
    def change(call):
        setattr(call.map if name == 'pass_number' else call, name, number)
    return change


FAULTS = {
    'pass': told('pass_number', 4), 'lists': turned, 'outside': entry(1, 9), 'no_length': no_length, 'kind': put('boundaries', 9 + 5, 3),
    'anchor': lambda call: call.map.anchors.extend((0, 1)), 'elevation': put('cells', 2, 17), 'labels': short('labels'), 'queue': short('queue'),
    'output': short('output'), 'verdicts': told('room', ROOM - 1), 'records': short('records'), 'pairs': lambda call: call.lists.pairs.__delitem__(slice(-3, None)),
    'goal': told('goal', 99)}


def faulty(cells):
    """a corridor with each fault, and with any two"""
    names = list(FAULTS)
    chosen = [(a,) for a in names] + [(a, b) for i, a in enumerate(names) for b in names[i + 1:]]
    for faults in chosen:
        call = Call(corridor(cells), 1, lists_for(corridor(cells)), ROOM)
        for name in faults:
            FAULTS[name](call)
        yield f'{cells}-{"-".join(faults)}', call


# ---- all

def corridors():
    """32 and 33 regions, before the pass and after it; goals at an end, in the middle, out of reach and out of the graph; no region at all"""
    for cells, mouth, goals in ((1, False, (1, 0, 2)), (5, False, (1, 3, 5)), (5, True, (4, 5)), (32, False, (1, 16)), (33, False, (1, 34)), (33, True, (1, 32, 33)),
                                (34, True, (1, 0))):
        for goal in goals:
            yield f'corridor-{cells}{"-mouth" * mouth}-{goal}', corridor(cells, mouth), goal
    for goal in (1, 5, 8):
        yield f'parts-{goal}', corridor(9, blocked=(4,)), goal
    yield 'blocked-1', corridor(3, blocked=(0, 1, 2)), 1


def drawn(seed, removed, all_kept):
    """maps of generate.py: so many with boundaries removed, so many without, and three of many rooms"""
    left = {True: removed, False: all_kept}
    for k, family, m in generate.maps(100_000, seed):
        m = one_list(random.Random(f'game/{seed}/{k}'), m)
        if len(m.cells) > SMALL or reference.early_refusal(m, reference.lend(m), True):
            continue
        gone = len(kept_map(m).boundaries) < len(m.boundaries)
        if left[gone]:
            left[gone] -= 1
            yield f'{family}-{k}', m
        if not any(left.values()):
            break
    for k in range(3):
        r = random.Random(f'rooms/{seed}/{k}')
        yield f'many-{k}', one_list(r, many_rooms(r))


def cases():
    """(name, call)"""
    for name, m, goal in corridors():
        yield name, Call(m, goal, lists_for(m), ROOM)
    yield from faulty(4)
    yield from faulty(34)
    for name, m in drawn('stored', 60, 20):
        r = random.Random(name)
        lists = lists_for(m)
        for each in (lists.labels, lists.masks, lists.queue, lists.tallies, lists.output, lists.pairs):
            each += [BEFORE] * r.choice((0, 0, 1, 4))
        lists.records += [RECORD_BEFORE] * r.choice((0, 0, 2))
        yield name, Call(m, goal_of(r, m), lists, ROOM + r.choice((0, 0, 7)))
