"""Runner and guard on the kept graph of a map: the library against the independent rendering.

    python3 game_maps.py COUNT [--seed S]

COUNT maps of generate.py whose boundaries are their spans, in any order and turned at will, one in twelve with rooms enough for about 32 regions, with lent
lists of odd contents and lengths; one in four has a fault or several. Compared with game_call_reference.py: the answer and every entry of every lent list at
exit. The first differences are printed. Exit code 0 if there is none.
"""
import argparse
import random
import sys
from collections import Counter
from dataclasses import dataclass

import package  # noqa: F401
import generate
from compare import damaged_lists, odd_lists
from game_call_reference import kept_map, play
from game_reference import ROOM
from jenwyllt._library import U8, U16, U32, U64, lent
from jenwyllt.game import RUNNER_AND_GUARD
from jenwyllt.kept import Region
from jenwyllt.unproved import reference
from jenwyllt.unproved.reference import LENT, Lent, Map
from rest import one_list, record_lent, record_numbers

KINDS = U32, U16, U32, U32, U32, None, U64      # of the lists of LENT; None is a record
MANY = ((8, 6), (12, 4), (7, 7), (16, 4), (10, 6), (9, 9))
BEFORE = 60_000                                 # what the list of verdicts holds before a call


@dataclass
class Call:
    """a map, the goal, and what is lent"""
    map: Map
    goal: int
    lists: Lent
    room: int                                   # of the list of verdicts


def many_rooms(r):
    """a map of about 32 regions"""
    m = generate.rooms(r, MANY, (1, 2)).finished()
    m.pass_number = r.choice((1, 2, 3))
    return m


def other_spans(r, m):
    """a span turned, missing or once more, so that the two are not one list"""
    k = 4 * r.randrange(len(m.spans) // 4)
    m.spans = r.choice((m.spans[:k] + m.spans[k + 2:k + 4] + m.spans[k:k + 2] + m.spans[k + 4:], m.spans[:k], m.spans + m.spans[k:k + 4]))


def with_room(r, lists):
    """records and pair rows for all that these maps have"""
    lists.pairs = [9] * (3 * 500 + r.choice((0, 1, 2)))
    lists.records = [record_numbers(record_lent((9, *[0] * 6, (9, 8, 7, 6))))] * 200
    return lists


def drawn(count, seed):
    """(number, call)"""
    for k, _, m in generate.maps(count, seed):
        r = random.Random(f'game/{seed}/{k}')
        if r.random() < 1 / 12:
            m = many_rooms(r)
        m = one_list(r, m)
        unfit = r.random() < 0.25
        if unfit and r.random() < 0.4 and m.spans:
            other_spans(r, m)
        if unfit and r.random() < 0.6:
            m = damaged_lists(r, m)
            if r.random() < 0.5 and len(m.boundaries) % 9 == 0:
                m.spans = [n for nine in reference.groups(m.boundaries, 9) for n in nine[:4]]
        lists = odd_lists(r, m)
        if not unfit or r.random() < 0.4:
            lists = with_room(r, lists)
        room = ROOM - 1 if unfit and r.random() < 0.1 else ROOM + r.choice((0, 0, 1, 40))
        yield k, Call(m, goal_of(r, m), lists, room)


def goal_of(r, m):
    """most often a region of the kept graph"""
    if reference.early_refusal(m, reference.lend(m), True) or m.spans != [n for nine in reference.groups(m.boundaries, 9) for n in nine[:4]]:
        return r.randrange(4)
    regions = reference.results(kept_map(m))['regions']
    return r.choice((0, regions + 1, 2 ** 64 - 1)) if r.random() < 0.06 else r.randint(1, max(regions, 1))


def called(call):
    """what the library answers and leaves in copies of the lists"""
    m = call.map
    given = [lent(Region, map(record_lent, getattr(call.lists, name))) if kind is None else lent(kind, getattr(call.lists, name)) for kind, name in zip(KINDS, LENT)]
    verdicts = lent(U32, [BEFORE] * call.room)
    answer = RUNNER_AND_GUARD(m.pass_number, m.width, m.height, lent(U8, bytes(m.cells)), *(lent(U64, each) for each in (m.spans, m.boundaries, m.anchors)),
                              call.goal, *given, verdicts)
    left = [list(map(record_numbers, each)) if kind is None else each[:] for kind, each in zip(KINDS, given)]
    return (answer.number, answer.value, answer.regions), Lent(*left), verdicts[:]


def rendered(call):
    """the same of the rendering"""
    lists, verdicts = call.lists.copy(), [BEFORE] * call.room
    return play(call.map, lists, call.goal, verdicts), lists, verdicts


def main():
    a = argparse.ArgumentParser(description=__doc__, formatter_class=argparse.RawDescriptionHelpFormatter)
    a.add_argument('count', type=int)
    a.add_argument('--seed', default='1')
    told = a.parse_args()
    numbers, removed, most, won, differences, maps = Counter(), 0, 0, 0, 0, 0
    for k, call in drawn(told.count, told.seed):
        expected = rendered(call)
        number, value, regions = expected[0]
        maps += 1
        numbers[number] += 1
        most = max(most, regions)
        if not number:
            removed += value < len(call.map.boundaries) // 9
            won += any(winner == 1 and moves for winner, moves in zip(expected[2][:6 * regions ** 2:3], expected[2][1:6 * regions ** 2:3]))
        if called(call) != expected:
            differences += 1
            if differences <= 3:
                print('differs:', told.seed, k, called(call)[0], expected[0])
    print(f'{maps} maps, {differences} differences; answers {dict(sorted(numbers.items()))}; of those accepted {removed} with boundaries removed, {won} with a win to '
          f'be forced by moves, up to {most} regions')
    return 1 if differences else 0


if __name__ == '__main__':
    sys.exit(main())
