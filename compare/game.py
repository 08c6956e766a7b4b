"""Runner and guard: the library against the independent solver.

    python3 game.py COUNT [--seed S]

COUNT graphs of game_graphs.py, each with a room, and now and then a refused call: number, value and every entry of the lent verdicts, those behind the last too.
The first differences are printed. Exit code 0 if there is none.
"""
import argparse
import random
import sys
from collections import Counter

import package  # noqa: F401
from game_graphs import graph
from game_reference import ROOM, solve_game
from jenwyllt._library import U32, lent
from jenwyllt.game import SOLVE_GAME

BEFORE = 60_000


def drawn(count, seed):
    """regions, pairs, goal and room of calls, one in ten of them unfit"""
    for k in range(count):
        r = random.Random(f'game/{seed}/{k}')
        regions, pairs, goal = graph(r)
        room = ROOM + r.choice((0, 0, 1, 5, 100))
        if r.random() < 0.1:
            unfit = r.randrange(4)
            if unfit == 0:
                pairs = pairs + [1]
            elif unfit == 1:
                room = r.choice((0, ROOM - 1))
            elif unfit == 2:
                regions = r.choice((33, 40, 2 ** 64 - 1))
            else:
                goal = r.choice((0, regions + 1))
        yield regions, pairs, goal, room


def main():
    a = argparse.ArgumentParser(description=__doc__, formatter_class=argparse.RawDescriptionHelpFormatter)
    a.add_argument('count', type=int)
    a.add_argument('--seed', type=int, default=1)
    told = a.parse_args()
    numbers, longest, differences = Counter(), 0, 0
    for regions, pairs, goal, room in drawn(told.count, told.seed):
        expected, entries = solve_game(regions, pairs, goal, room)
        verdicts = lent(U32, [BEFORE] * room)
        answer = SOLVE_GAME(regions, lent(U32, pairs), goal, verdicts)
        left = (entries or []) + [BEFORE] * (room - len(entries or []))
        numbers[expected[0]] += 1
        longest = max([longest, *(entries or [])[1::3]])
        if (answer.number, answer.value) != expected or verdicts[:] != left:
            differences += 1
            if differences <= 3:
                print('differs:', regions, pairs, goal, room, (answer.number, answer.value), expected)
    print(f'{told.count} graphs, {differences} differences; answers {dict(sorted(numbers.items()))}; the longest win has {longest} moves')
    return 1 if differences else 0


if __name__ == '__main__':
    sys.exit(main())
