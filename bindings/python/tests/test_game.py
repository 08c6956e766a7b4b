"""Runner and guard: stored graphs and maps, places by name, what is refused, lines of play, and the command `jenwyllt game`."""
from __future__ import annotations

import ctypes
import json
import unittest
import xml.etree.ElementTree as ElementTree
from collections.abc import Iterator
from dataclasses import dataclass
from typing import Any

from jenwyllt import Refusal, Verdict, Winner, read_sheet, runner_and_guard, solve_game
from jenwyllt._library import U8, U16, U32, U64, lent
from jenwyllt.game import RUNNER_AND_GUARD, SOLVE_GAME
from jenwyllt.game_play import End, Place, line_of_play, near
from jenwyllt.kept import Region
from jenwyllt.sheet import flat

from .files import EXAMPLES, PICTURES, VECTORS
from .test_command import Trial, run
from .test_vectors import record_numbers

BEFORE = 60_000                     # what a list holds before a call; no verdict has it
RECORD_BEFORE = [9, *[0] * 10]      # and each record
LISTS = {'labels': U32, 'masks': U16, 'queue': U32, 'tallies': U32, 'pairs': U32, 'records': Region, 'output': U64, 'verdicts': U32}


class Stored(unittest.TestCase):
    def test_library(self) -> None:
        """number and value, every verdict, and what stands behind them; of a refused call the whole list"""
        numbers = set()
        for line in (VECTORS / 'game.txt').read_text().splitlines():
            regions, goal, count, *rest = map(int, line.split(' '))
            room, number, value, *expected = rest[count:]
            verdicts = lent(U32, [BEFORE] * room)
            answer = SOLVE_GAME(regions, lent(U32, rest[:count]), goal, verdicts)
            self.assertEqual((answer.number, answer.value), (number, value), line[:80])
            self.assertEqual(verdicts[:], [*expected, *[BEFORE] * (room - len(expected))], line[:80])
            numbers.add(number)
        self.assertEqual(numbers, {0, 3, 10, 23, 24})


@dataclass
class StoredMap:
    name: str
    sheet: bytes
    goal: int
    room: list[int]                 # entries of each list
    answer: tuple[int, ...]
    changed: dict[str, list[int]]   # in front of each list, by the numbers of its entries

    def lists(self) -> dict[str, ctypes.Array[Any]]:
        """as they are lent"""
        return {name: lent(kind, [Region(cells=9)] * room if kind is Region else [BEFORE] * room) for (name, kind), room in zip(LISTS.items(), self.room)}

    def left(self, name: str) -> list[int]:
        """what a list must hold afterwards"""
        before = RECORD_BEFORE if name == 'records' else [BEFORE]
        front = self.changed.get(name, [])
        return front + before * (self.room[list(LISTS).index(name)] - len(front) // len(before))


def stored_maps() -> Iterator[StoredMap]:
    for text in (VECTORS / 'game_maps.txt').read_text().removeprefix('map ').split('\nmap '):
        name, *lines = text.splitlines()
        words = {line.split(' ')[0]: line.split(' ')[1:] for line in lines}
        numbers = {word: list(map(int, those)) for word, those in words.items() if word != 'sheet'}
        yield StoredMap(name, bytes.fromhex(words['sheet'][1]), numbers['goal'][0], numbers['room'], tuple(numbers['answer']),
                        {word: numbers[word][1:] for word in LISTS if word in numbers})


class StoredMaps(unittest.TestCase):
    def test_every_list(self) -> None:
        """the answer, and every entry of every lent list"""
        refused, regions = set(), set()
        for stored in stored_maps():
            sheet, lists = read_sheet(stored.sheet), stored.lists()
            read = lent(U8, sheet.cells), *(lent(U64, flat(entries)) for entries in (sheet.spans, sheet.boundaries, sheet.anchors))
            *filled, verdicts = lists.values()
            answer = RUNNER_AND_GUARD(sheet.pass_number, sheet.width, sheet.height, *read, stored.goal, *filled, verdicts)
            self.assertEqual((answer.number, answer.value, answer.regions), stored.answer, stored.name)
            for name, entries in lists.items():
                numbers = [n for record in entries for n in record_numbers(record)] if name == 'records' else entries[:]
                self.assertEqual(numbers, stored.left(name), f'{stored.name}: {name}')
            refused.add(answer.number)
            regions.add(answer.regions)
        self.assertEqual(refused, {0, *range(4, 13), 16, 23, 24})
        self.assertTrue({1, 4, 5, 32} <= regions)

    def test_own_lists(self) -> None:
        """of each map that is not refused for its lists the call that makes its own"""
        for stored in stored_maps():
            sheet, number = read_sheet(stored.sheet), stored.answer[0]
            if number in (10, 11, 12):
                continue
            if number:
                with self.assertRaises(Refusal) as caught:
                    runner_and_guard(sheet, stored.goal)
                self.assertEqual((caught.exception.number, caught.exception.place, 0), stored.answer, stored.name)
                continue
            kept = runner_and_guard(sheet, stored.goal)
            self.assertEqual((0, len(kept.rows), kept.game.regions), stored.answer, stored.name)
            self.assertEqual((kept.boundaries, kept.partition.labels, len(kept.records)), (len(sheet.boundaries), stored.changed['labels'], kept.game.regions), stored.name)
            self.assertEqual([n for verdict in kept.game.verdicts for n in verdict], stored.changed['verdicts'], stored.name)
            rows = [n for row in kept.rows for n in (row.number, *row.start, *row.end)]
            self.assertEqual(rows, stored.changed.get('output', []), stored.name)
            pairs = stored.changed.get('pairs', [])
            self.assertEqual([n for pair in kept.partition.pairs for n in pair], pairs[:3 * len(kept.partition.pairs)], stored.name)
            self.assertFalse(any(pairs[3 * len(kept.partition.pairs):]), stored.name)
            solved = solve_game(kept.game.regions, [(pair.smaller, pair.larger) for pair in kept.partition.pairs], stored.goal)
            self.assertEqual(solved, kept.game, stored.name)

    def test_over_at_the_start(self) -> None:
        """a runner on the goal has won in no moves, but not where the guard stands there too"""
        for stored in stored_maps():
            if not stored.answer[0]:
                game = runner_and_guard(read_sheet(stored.sheet), stored.goal).game
                for guard in range(1, game.regions + 1):
                    for turn in (True, False):
                        self.assertEqual(game.at(stored.goal, guard, turn), Verdict(Winner.GUARD if guard == stored.goal else Winner.RUNNER, 0, 0), stored.name)
                        self.assertEqual(game.at(guard, guard, turn), Verdict(Winner.GUARD, 0, 0), stored.name)


class Places(unittest.TestCase):
    def test_cycle(self) -> None:
        game = solve_game(5, [(1, 2), (2, 3), (3, 4), (4, 5), (5, 1)], 3)
        self.assertEqual(game.at(1, 5, True), Verdict(Winner.RUNNER, 3, 2))
        self.assertEqual(game.at(1, 5, False), Verdict(Winner.GUARD, 0, 1))
        self.assertEqual(game.at(3, 3, True).winner, Winner.GUARD)
        self.assertEqual(game.at(3, 1, False), Verdict(Winner.RUNNER, 0, 0))
        with self.assertRaises(ValueError):
            game.at(0, 1, True)

    def test_refused(self) -> None:
        for regions, goal, number in ((33, 1, 23), (33, 34, 23), (3, 0, 24), (3, 4, 24), (0, 1, 24)):
            with self.assertRaises(Refusal) as caught:
                solve_game(regions, [], goal)
            self.assertEqual(caught.exception, Refusal(number, 0))


class Lines(unittest.TestCase):
    def test_near(self) -> None:
        self.assertEqual(near(2, [(1, 2), (2, 2), (2, 5), (3, 4)]), [2, 1, 5])

    def test_ends(self) -> None:
        edges = [(1, 2), (2, 3)]
        game = solve_game(3, edges, 3)
        self.assertEqual(line_of_play(game, edges, 2, 1).places, [Place(2, 1, True), Place(3, 1, False)])
        self.assertEqual((line_of_play(game, edges, 3, 1).end, line_of_play(game, edges, 3, 3).end, line_of_play(game, edges, 3, 1).places), (End.GOAL, End.CAPTURE, [Place(3, 1, True)]))
        self.assertEqual(line_of_play(game, edges, 1, 3).places, [Place(1, 3, True), Place(1, 3, False), Place(1, 2, True), Place(1, 2, False), Place(1, 1, True)])
        endless = line_of_play(solve_game(3, [], 3), [], 1, 2)
        self.assertEqual((endless.end, endless.places), (End.ENDLESS, [Place(1, 2, True), Place(1, 2, False), Place(1, 2, True)]))

    def test_kept_to_the_table(self) -> None:
        """from every place of the stored maps a runner who can win does, in just the fewest moves, against a guard who puts it off; else he does not"""
        for stored in stored_maps():
            if stored.answer[0] or stored.answer[2] > 12:
                continue
            kept = runner_and_guard(read_sheet(stored.sheet), stored.goal)
            edges = [(pair.smaller, pair.larger) for pair in kept.partition.pairs]
            for runner in range(1, kept.game.regions + 1):
                for guard in range(1, kept.game.regions + 1):
                    verdict, play = kept.game.at(runner, guard, True), line_of_play(kept.game, edges, runner, guard)
                    if verdict.winner is Winner.RUNNER:
                        self.assertEqual((play.end, len(play.places) - 1), (End.GOAL, verdict.moves), stored.name)
                    else:
                        self.assertIn(play.end, (End.CAPTURE, End.ENDLESS), stored.name)


def corridor(cells: int) -> bytes:
    """as a text: cells in a row, each a region, for pass 1"""
    boundaries = ''.join(f'boundary {8 * x} 0 {8 * x} 8 8.0\n' for x in range(1, cells))
    return f'pass 1\nmap {cells} 1\n{"0" * cells}\n{boundaries}'.encode()


class Command(Trial):
    MAP = EXAMPLES / 'junctions.txt'
    GRAPH = 'kept graph: 6 regions, 5 edges, by the 6 of 8 boundaries kept\nedges: 1 4, 2 4, 3 4, 4 5, 5 6\n'

    def test_words(self) -> None:
        self.answers(f'{self.GRAPH}goal 1: of 72 places the runner can force a win from 18, in 3 moves at most; the guard from 54\n', 'game', self.MAP, '--goal', 1)
        said = f'{self.GRAPH}goal 6: of 72 places the runner can force a win from 20, in 3 moves at most; the guard from 52\n'
        self.answers(f'{said}runner on 4, guard on 1: the runner can force a win in 3 moves\nmove 1: runner to 5\nmove 2: guard stays on 1\nmove 3: runner to 6\nthe runner has won\n',
                     'game', self.MAP, '--goal', 6, '--runner', 4, '--guard', 1)
        self.answers(f'{said}runner on 1, guard on 2: the guard can force a win\nmove 1: runner stays on 1\nmove 2: guard stays on 2\nand so on for ever: the guard wins\n',
                     'game', '--goal', 6, '--runner', 1, '--guard', 2, data=self.MAP.read_bytes())

    def test_over_at_the_start(self) -> None:
        """on the goal, and captured there"""
        words = {1: 'on the goal at the start, the runner has won', 6: 'captured at the start, the guard has won'}
        for guard, said in words.items():
            done = run('game', self.MAP, '--goal', 6, '--runner', 6, '--guard', guard)
            self.assertEqual((done.returncode, done.stdout.decode().splitlines()[-1]), (0, f'runner on 6, guard on {guard}: {said}'))

    def test_table(self) -> None:
        said = run('game', EXAMPLES / 'case_j.sheet', '--goal', 2, '--table').stdout.decode().splitlines()
        self.assertEqual((said[3], len(said[4:])), ('runner guard to-move winner moves region', 50))
        self.assertIn('3 1 runner runner 1 2', said)
        self.assertIn('2 1 guard runner 0 -', said)
        self.assertIn('1 2 guard guard - 2', said)

    def test_json(self) -> None:
        found = json.loads(run('game', '--json', '--table', EXAMPLES / 'junctions.sheet', '--goal', 6, '--runner', 4, '--guard', 1).stdout)
        self.assertEqual((found['regions'], found['edges'][0], found['goal'], len(found['kept']), len(found['table'])), (6, [1, 4], 6, 6, 72))
        self.assertEqual((found['verdict'], found['end'], len(found['play'])), ({'winner': 'runner', 'moves': 3, 'region': 5}, 'goal', 4))
        self.assertEqual(found['play'][0], {'runner': 4, 'guard': 1, 'runners_turn': True})
        self.assertNotIn('play', json.loads(run('game', '--json', EXAMPLES / 'junctions.sheet', '--goal', 6).stdout))
        refused = run('game', '--json', EXAMPLES / 'junctions.sheet', '--goal', 7)
        self.assertEqual((refused.returncode, json.loads(refused.stdout)['refused']['number']), (1, 24))

    def test_picture(self) -> None:
        picture = self.folder / 'game.svg'
        self.assertEqual(run('game', self.MAP, '--goal', 6, '--runner', 4, '--guard', 1, '--draw', picture).returncode, 0)
        self.assertEqual(picture.read_text(), (PICTURES / 'game.svg').read_text())
        plain = self.folder / 'plain.svg'
        self.assertEqual(run('game', '-', '--goal', 1, '--draw', plain, data=corridor(32)).returncode, 0)
        space = '{http://www.w3.org/2000/svg}'
        drawn, _ = ElementTree.parse(plain).getroot().findall(f'{space}g')
        self.assertEqual((len(drawn.findall(f'{space}circle')), drawn.findall(f'{space}polygon')), (32, []))

    def test_limits(self) -> None:
        """32 regions are played on and 33 are not, whatever the goal; a goal of the graph's and one beyond; a graph of none"""
        done = run('game', '--goal', 32, '--runner', 31, '--guard', 1, data=corridor(32))
        self.assertEqual((done.returncode, done.stdout.decode().splitlines()[-1]), (0, 'the runner has won'))
        for goal in (1, 34, 2 ** 64 - 1):
            self.fails(1, 'jenwyllt: standard input: refused 23 at 0: the kept graph has 33 regions, over 32', 'game', '--goal', goal, data=corridor(33))
        for goal in (0, 33):
            self.fails(1, f'jenwyllt: standard input: refused 24 at 0: the goal {goal} is no region of the kept graph, which has 32 regions', 'game', '--goal', goal, data=corridor(32))
        self.fails(1, 'jenwyllt: standard input: refused 24 at 0: the goal 1 is no region of the kept graph, which has 0 regions', 'game', '--goal', 1,
                   data=b'pass 1\nmap 1 1\n#\n')

    def test_refused(self) -> None:
        text = self.MAP.read_bytes()
        self.fails(1, 'jenwyllt: standard input: refused 16 at 0: there are 0 spans and 8 boundaries, and they must be one list', 'game', '--goal', 1, data=text + b'spans\n')
        self.fails(1, 'jenwyllt: standard input: refused 4 at 0: the pass is 4, not 1, 2 or 3', 'game', '--goal', 1,
                   data=text.replace(b'pass 3\n', b'pass 4\n') + b'spans\n')

    def test_wrong_use(self) -> None:
        more = 'jenwyllt game --help says more'
        self.fails(2, f'jenwyllt game: the following arguments are required: --goal; {more}', 'game', self.MAP)
        for goal in ('-1', 'x', 2 ** 64, ''):
            done = run('game', self.MAP, f'--goal={goal}')
            self.assertEqual((done.returncode, done.stdout), (2, b''))
            self.assertIn(f'{goal} is no whole number from 0 to {2 ** 64 - 1}', done.stderr.decode())
        self.fails(2, 'jenwyllt: --runner and --guard go together', 'game', self.MAP, '--goal', 1, '--runner', 1)
        self.fails(2, 'jenwyllt: --runner and --guard go together', 'game', self.MAP, '--goal', 1, '--guard', 1)
        self.fails(2, 'jenwyllt: --runner 7: the kept graph has 6 regions, from 1', 'game', self.MAP, '--goal', 1, '--runner', 7, '--guard', 1)
        self.fails(2, 'jenwyllt: --guard 0: the kept graph has 6 regions, from 1', 'game', self.MAP, '--goal', 1, '--runner', 1, '--guard', 0)
