"""The ranked junction list: the stored answers of the Rust, what the list says of the pass, 21, and the command."""
import contextlib
import io
import json
import tempfile
import unittest
from collections.abc import Iterator
from dataclasses import dataclass, replace
from pathlib import Path
from unittest import mock

from jenwyllt import Refusal, kept_boundaries, ranked_junctions, read_sheet
from jenwyllt.__main__ import main
from jenwyllt._library import U8, U16, U32, U64, lent
from jenwyllt.kept import ROW_NUMBERS, Region
from jenwyllt.ranked import MOST_PROPOSALS, RANKED_JUNCTIONS, RANKED_NUMBERS, Ranked, conflict_words, ports_of
from jenwyllt.sheet import Sheet, flat
from jenwyllt.unproved.ranked import ranked_junctions as rendered

from . import declarations
from .files import EXAMPLES, VECTORS

HELD = 77                           # what a list holds before a call


@dataclass
class StoredList:
    name: str
    sheet: Sheet
    ranked: list[int]
    rows: list[int]


def stored_lists() -> Iterator[StoredList]:
    lines = [line.split(' ') for line in (VECTORS / 'ranked.txt').read_text().splitlines()]
    for first in range(0, len(lines), 5):
        name, sheet, _, ranked, rows = lines[first:first + 5]
        yield StoredList(name[1], read_sheet(bytes.fromhex(sheet[2])), list(map(int, ranked[2:])), list(map(int, rows[2:])))


class Stored(unittest.TestCase):
    def check(self, stored: StoredList, ranked: Ranked) -> None:
        self.assertEqual([n for proposal in ranked.proposals for n in proposal.numbers()], stored.ranked, stored.name)
        self.assertEqual([n for row in ranked.kept.rows for n in (row.number, *row.start, *row.end)], stored.rows, stored.name)

    def test_library(self) -> None:
        """the list, and all else as a call of pass 3 gives it; whatever pass the sheet names"""
        refused = 0
        for k, stored in enumerate(stored_lists()):
            ranked = ranked_junctions(replace(stored.sheet, pass_number=k % 5))
            self.check(stored, ranked)
            self.assertEqual(ranked.kept, kept_boundaries(stored.sheet), stored.name)
            refused += sum(not proposal.taken for proposal in ranked.proposals)
        self.assertGreater(refused, 200)

    def test_rendering(self) -> None:
        for stored in stored_lists():
            self.check(stored, rendered(stored.sheet))

    def test_greedy(self) -> None:
        """what the request says of the list"""
        for stored in stored_lists():
            ranked = ranked_junctions(stored.sheet)
            cut, proposals = ranked.kept.partition, ranked.proposals
            taken = [(rank, proposal, set(ports_of(proposal, cut))) for rank, proposal in enumerate(proposals) if proposal.taken]
            removed = {proposal.boundary for _, proposal, _ in taken}
            self.assertEqual(len(removed), len(taken), 'no two remove one boundary')
            self.assertEqual(removed, set(range(len(stored.sheet.boundaries))) - {row.number for row in ranked.kept.rows})
            for rank, proposal, ports in taken:
                self.assertEqual(proposal.by, 0)
                for other, before, their_ports in taken:
                    if other < rank:
                        self.assertFalse(ports & their_ports)
                        self.assertFalse(proposal.boundary in their_ports or before.boundary in ports)
            for rank, proposal in enumerate(proposals):
                if not proposal.taken:
                    self.assertTrue(proposal.by < rank and proposals[proposal.by].taken)
                    self.assertIn('port', conflict_words(rank, proposals, cut), 'the rule on regions never decides alone')


class Room(unittest.TestCase):
    def lists(self, sheet: Sheet, ranked: int) -> list:
        """what is lent to be filled, each entry HELD"""
        n = len(sheet.cells)
        sizes = (U32, n), (U16, n), (U32, n), (U32, 2 * len(sheet.spans)), (U32, 3000)
        return [lent(kind, [HELD] * size) for kind, size in sizes] + [lent(Region, n), lent(U64, [HELD] * (ROW_NUMBERS * len(sheet.boundaries) + 1)), lent(U32, [HELD] * ranked)]

    def call(self, sheet: Sheet, ranked: int) -> tuple[tuple[int, int, int], list]:
        lists = self.lists(sheet, ranked)
        read = lent(U8, sheet.cells), *(lent(U64, flat(entries)) for entries in (sheet.spans, sheet.boundaries, sheet.anchors))
        answer = RANKED_JUNCTIONS(sheet.width, sheet.height, *read, *lists)
        return (answer.number, answer.value, answer.proposals), [[each.values() for each in those] if those._type_ is Region else those[:] for those in lists]

    def test_room(self) -> None:
        """a list of 6 n + 5 numbers has n rows; with one row too few 21: the list zero, the output as it was, all else as on success"""
        sheet = next(stored.sheet for stored in stored_lists() if len(stored.ranked) >= 3 * RANKED_NUMBERS)
        ranked = ranked_junctions(sheet)
        needed, kept = len(ranked.proposals), len(ranked.kept.rows)
        numbers = [n for proposal in ranked.proposals for n in proposal.numbers()]
        answer, done = self.call(sheet, RANKED_NUMBERS * needed + 5)
        self.assertEqual(answer, (0, kept, needed))
        self.assertEqual(done[7], numbers + [HELD] * 5)
        for size in (0, 1, RANKED_NUMBERS * needed - 1):
            answer, short = self.call(sheet, size)
            self.assertEqual(answer, (21, 0, 0))
            self.assertEqual(short[:6], done[:6])
            self.assertEqual(set(short[6]), {HELD})
            self.assertEqual(short[7], [0] * size)

    def test_refused(self) -> None:
        """another refusal comes first, and leaves the list"""
        sheet = next(stored.sheet for stored in stored_lists() if stored.ranked)
        outside = replace(sheet, anchors=(*sheet.anchors, sheet.pixels))
        answer, lists = self.call(outside, 4)
        self.assertEqual(answer, (8, len(sheet.anchors), 0))
        self.assertEqual(lists[7], [HELD] * 4)

    def test_binding(self) -> None:
        sheet = next(stored.sheet for stored in stored_lists() if stored.ranked)
        for call in (ranked_junctions, rendered):
            with self.assertRaises(Refusal) as caught:
                call(sheet, 0)
            self.assertEqual((caught.exception.number, caught.exception.place), (21, 0))

    def test_numbers(self) -> None:
        self.assertEqual(declarations.header_enum('jenwyllt_size')['RANKED_NUMBERS'], RANKED_NUMBERS)
        self.assertEqual(MOST_PROPOSALS, 256 + 170)


class Command(unittest.TestCase):
    def run_on(self, *words: str) -> tuple[int, str]:
        out = io.TextIOWrapper(io.BytesIO(), write_through=True)
        with mock.patch('sys.stdout', out), contextlib.redirect_stderr(io.StringIO()):
            status = main(['ranked', *words])
        return status, out.buffer.getvalue().decode()

    def test_words(self) -> None:
        status, said = self.run_on(str(EXAMPLES / 'junctions.txt'))
        self.assertEqual(status, 0)
        self.assertEqual(said.splitlines(), [
            '3 proposals, 2 taken; pass 3 keeps 6 of 8',
            'rank 0: union, boundary 0, regions 4 and 5, ports 1 2 3 4: taken',
            'rank 1: bridge, boundary 6, pocket 7 and exterior 6, ports 5 6 7: taken',
            'rank 2: union, boundary 4, regions 5 and 6, ports 0 3 5 6: refused: its port 0 is the boundary of rank 0'])

    def test_json(self) -> None:
        status, said = self.run_on('--json', str(EXAMPLES / 'junctions.sheet'))
        found = json.loads(said)
        self.assertEqual((status, found['proved'], found['kept']), (0, True, [1, 2, 4, 5, 3, 7]))
        self.assertEqual(found['proposals'][2], {'rank': 2, 'kind': 'union', 'boundary': 4, 'regions': [5, 6], 'ports': [0, 3, 5, 6], 'taken': False, 'refused_by': 0})

    def test_unproved(self) -> None:
        status, said = self.run_on('--unproved', str(EXAMPLES / 'junctions.txt'))
        self.assertEqual(status, 0)
        self.assertTrue(said.startswith(self.run_on(str(EXAMPLES / 'junctions.txt'))[1]))
        self.assertIn('unproved', said)

    def test_picture(self) -> None:
        with tempfile.TemporaryDirectory() as folder:
            path = Path(folder) / 'ranks.svg'
            self.run_on(str(EXAMPLES / 'junctions.txt'), '--draw', str(path))
            picture = path.read_text()
        for words in ('0 #0', '6 #1', '4 #2×', 'proposed, with its rank', 'proposed and refused'):
            self.assertIn(f'>{words}<', picture)
