"""Running to rest: the stored runs of the Rust called by turns, replayed through the library, and the command `jenwyllt rest`."""
from __future__ import annotations

import json
import unittest
from collections.abc import Iterator
from dataclasses import dataclass

from jenwyllt import Refusal, Rested, read_sheet, run_to_rest
from jenwyllt.rest import by_turns

from .files import EXAMPLES, NAMES, PICTURES, VECTORS
from .test_command import Trial, run
from .test_vectors import record_numbers


@dataclass
class StoredRun:
    name: str
    sheet: bytes
    records: int                    # as many are lent
    pair_rows: int
    answer: tuple[int, int, int]    # number, rows or place, rounds
    numbers: dict[str, list[int]]   # of an accepted run: labels, tallies, pairs, records, rows


def stored_runs() -> Iterator[StoredRun]:
    for text in (VECTORS / 'rest.txt').read_text().removeprefix('run ').split('\nrun '):
        name, *lines = text.splitlines()
        words = {line.split(' ')[0]: line.split(' ')[1:] for line in lines}
        records, pair_rows = map(int, words['room'])
        number, value, rounds = map(int, words['answer'])
        numbers = {word: list(map(int, words[word][1:])) for word in ('labels', 'tallies', 'pairs', 'records', 'rows') if word in words}
        yield StoredRun(name, bytes.fromhex(words['sheet'][1]), records, pair_rows, (number, value, rounds), numbers)


class Runs(unittest.TestCase):
    def check(self, stored: StoredRun, rested: Rested) -> None:
        cut = rested.partition
        self.assertEqual((0, len(rested.rows), rested.rounds), stored.answer, stored.name)
        self.assertEqual(cut.labels, stored.numbers['labels'], stored.name)
        self.assertEqual([n for tally in cut.tallies for n in tally], stored.numbers['tallies'], stored.name)
        self.assertEqual([n for pair in cut.pairs for n in pair], stored.numbers['pairs'], stored.name)
        self.assertEqual([n for record in rested.records for n in record_numbers(record)], stored.numbers['records'], stored.name)
        self.assertEqual([n for row in rested.rows for n in (row.number, *row.start, *row.end)], stored.numbers['rows'], stored.name)

    def test_stored(self) -> None:
        longer, refused = 0, set()
        for stored in stored_runs():
            sheet = read_sheet(stored.sheet)
            if stored.answer[0]:
                with self.assertRaises(Refusal) as caught:
                    run_to_rest(sheet, stored.records, stored.pair_rows)
                self.assertEqual((caught.exception.number, caught.exception.place, 0), stored.answer, stored.name)
                refused.add(stored.answer[0])
            else:
                self.check(stored, run_to_rest(sheet, stored.records, stored.pair_rows))
                self.assertEqual(run_to_rest(sheet), run_to_rest(sheet, stored.records, stored.pair_rows), stored.name)
                longer += stored.answer[2] > 1
        self.assertGreaterEqual(longer, 200)
        self.assertEqual(refused, {5, 11, 12, 16})

    def test_by_turns(self) -> None:
        """every third run: the passes called by turns end in the same rows, and each round but the last removes one or more"""
        for stored in [each for each in stored_runs() if not each.answer[0]][::3]:
            sheet = read_sheet(stored.sheet)
            rounds, rows = by_turns(sheet)
            rested = run_to_rest(sheet)
            self.assertEqual((rows, len(rounds)), (rested.rows, rested.rounds), stored.name)
            self.assertEqual([bool(each.count()) for each in rounds], [True] * (len(rounds) - 1) + [False], stored.name)
            gone = sorted(number for each in rounds for numbers in each.removed for number in numbers)
            self.assertEqual(sorted([*gone, *(row.number for row in rows)]), list(range(len(sheet.boundaries))), stored.name)


class Command(Trial):
    def test_words(self) -> None:
        self.answers('kept 3 of 5 in 3 rounds\nround 1: pass 3 removes 0\nround 2: pass 3 removes 1\nround 3: none is removed\n2 8 8 16 8\n4 16 16 24 16\n3 24 8 24 16\n',
                     'rest', EXAMPLES / 'case_j.txt')

    def test_picture(self) -> None:
        picture = self.folder / 'rest.svg'
        self.assertEqual(run('rest', EXAMPLES / 'case_j.txt', '--draw', picture).returncode, 0)
        self.assertEqual(picture.read_text(), (PICTURES / 'rest.svg').read_text())
        self.assertIn('>0 r1</text>', picture.read_text())

    def test_json(self) -> None:
        for name in NAMES:
            found = json.loads(run('rest', '--json', EXAMPLES / f'{name}.sheet').stdout)
            removed = [number for each in found['rounds'] for numbers in each.values() for number in numbers]
            self.assertEqual(sorted([*removed, *(row['number'] for row in found['kept'])]), list(range(found['boundaries'])), name)
            self.assertEqual(list(found['rounds'][-1].values()), [[], [], []], name)

    def test_refused(self) -> None:
        text = (EXAMPLES / 'case_j.txt').read_text()
        self.fails(1, 'jenwyllt: standard input: refused 16 at 4: span 4 goes from 24 16 to 16 16, and boundary 4 from 16 16 to 24 16: they must be one list, '
                      'endpoints as written', 'rest', data=(text + 'span 24 16 16 16\n').encode())
        self.fails(1, 'jenwyllt: standard input: refused 16 at 0: there are 0 spans and 5 boundaries, and they must be one list', 'rest',
                   data=(text + 'spans\n').encode())
