"""Makes vectors/game.txt and vectors/game_maps.txt: graphs of runner and guard and what `solve_game` must answer, by the independent solver
game_reference.py; maps and what `runner_and_guard` must answer and leave in every list, by the rendering game_call_reference.py.

    python3 make_game.py [--check]

With --check it says whether the files are as it makes them. The seeds are fixed. vectors/README.md has the formats.
"""
from __future__ import annotations

import random
import sys
from collections.abc import Iterator
from pathlib import Path

import package  # noqa: F401
import game_cases
from game_call_reference import play
from game_graphs import cycle, graph, no_edges, path, random_pairs, star
from game_maps import Call
from game_reference import ROOM, solve_game
from jenwyllt.unproved import sheet_bytes
from jenwyllt.unproved.hypotenuse import double
from jenwyllt.unproved.reference import LENT

VECTORS = Path(__file__).resolve().parents[1] / 'vectors'
SEED = 14


def case(regions: int, pairs: list[int], goal: int, room: int = ROOM) -> str:
    """a line: what is told and lent, then number, value and verdicts"""
    answer, verdicts = solve_game(regions, pairs, goal, room)
    return ' '.join(map(str, (regions, goal, len(pairs), *pairs, room, *answer, *(verdicts or []))))


def cases() -> Iterator[str]:
    r = random.Random(SEED)
    yield case(1, [], 1)
    yield case(3, path(3), 3)
    yield case(5, cycle(5), 3, ROOM + 7)
    yield case(3, [1, 2, 0, 3, 3, 4], 3)                # a goal that no edge reaches
    yield case(6, path(3) + [4, 5, 5, 6], 5)            # two parts
    for pairs in (path(32), cycle(32), random_pairs(r, 32), star(32) + no_edges(r, 32)):
        yield case(32, pairs, r.randint(1, 32))
    drawn = 0
    while drawn < 90:
        regions, pairs, goal = graph(r)
        if regions <= 12:
            yield case(regions, pairs, goal, ROOM + r.choice((0, 0, 1, 60)))
            drawn += 1
    for regions, pairs, goal, room in ((33, [1], 34, ROOM - 1), (33, [], 34, ROOM - 1), (33, [], 34, ROOM), (33, path(33), 1, ROOM), (32, [], 33, ROOM), (32, [], 0, ROOM),
                                       (0, [], 0, ROOM), (0, [], 1, ROOM), (2, [1, 2, 1], 1, ROOM), (2, [1, 2], 1, 0), (2**64 - 1, [], 1, ROOM), (2, [], 2**64 - 1, ROOM)):
        yield case(regions, pairs, goal, room)


def changed(entries: list, before: object) -> list:
    """the front of a list at exit, up to the last entry that is not as it was"""
    last = max((k for k, entry in enumerate(entries, 1) if entry != before), default=0)
    return entries[:last]


def record_numbers(record: tuple) -> list[int]:
    cells, *edges, ramps, mask, counts = record
    return [cells, *(int(double(edge)) for edge in edges), ramps, mask, *counts]


def map_case(name: str, call: Call) -> str:
    """the lines of a call on a map: what is told and lent, the answer, and of each list what is changed in front"""
    data = sheet_bytes.sheet_of(call.map)
    room = ' '.join(str(len(getattr(call.lists, each))) for each in LENT)
    verdicts = [game_cases.BEFORE] * call.room
    number, value, regions = play(call.map, call.lists, call.goal, verdicts)
    lines = [f'map {name}', f'sheet {len(data)} {data.hex()}', f'goal {call.goal}', f'room {room} {call.room}', f'answer {number} {value} {regions}']
    for each in (*LENT, 'verdicts'):
        entries = verdicts if each == 'verdicts' else getattr(call.lists, each)
        front = changed(entries, game_cases.RECORD_BEFORE if each == 'records' else game_cases.BEFORE)
        if front:
            numbers = [n for record in front for n in record_numbers(record)] if each == 'records' else front
            lines.append(f'{each} {len(front)} {" ".join(map(str, numbers))}')
    return '\n'.join(lines)


def made() -> dict[str, str]:
    """what each file holds"""
    maps = [map_case(name, call) for name, call in game_cases.cases()]
    return {'game.txt': ''.join(f'{line}\n' for line in cases()), 'game_maps.txt': ''.join(f'{lines}\n' for lines in maps)}


def main(words: list[str]) -> int:
    if words == ['--help']:
        print(__doc__.strip())
        return 0
    if words not in ([], ['--check']):
        print('usage: make_game.py [--check]', file=sys.stderr)
        return 2
    same = True
    for name, text in made().items():
        if words:
            stands = (VECTORS / name).exists() and (VECTORS / name).read_text() == text
            print(f'{name}: {"as it is made" if stands else "not as it is made"}')
            same = same and stands
        else:
            (VECTORS / name).write_text(text)
            print(f'{name}: {len(text)} bytes')
    return 0 if same else 1


if __name__ == '__main__':
    sys.exit(main(sys.argv[1:]))
