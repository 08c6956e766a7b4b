"""The stored answers of the Rust, replayed through the library and on the rendering in Python."""
import unittest

from jenwyllt import Kept, Refusal, Sheet, kept_boundaries, partition, read_sheet, sheet_bytes, unproved
from jenwyllt.commands._answers import PROVED, UNPROVED
from jenwyllt.commands.keptlist import answer
from jenwyllt.kept import Region
from jenwyllt.sheet import Boundary, Point, Span, flat

from .files import stored_maps, stored_sheets


def record_numbers(region: Region) -> list[int]:
    values = region.values()
    return [int(each) for value in values.values() for each in (value if isinstance(value, list) else [value])]


class Maps(unittest.TestCase):
    def check(self, name: str, sheet: Sheet, kept: Kept, numbers: dict[str, list[int]]) -> None:
        cut = kept.partition
        self.assertEqual(cut.labels, numbers['labels'], name)
        self.assertEqual([n for tally in cut.tallies for n in tally], numbers['tallies'], name)
        self.assertEqual([n for pair in cut.pairs for n in pair], numbers['pairs'], name)
        self.assertEqual([n for record in kept.records for n in record_numbers(record)], numbers['records'], name)
        self.assertEqual([n for row in kept.rows for n in (row.number, *row.start, *row.end)], numbers['rows'], name)
        self.assertEqual(sum(record.cells for record in kept.records), sum(cell & 1 for cell in sheet.cells), name)
        self.assertEqual(sum(record.ramp_cells for record in kept.records), sum(cell & 3 == 3 for cell in sheet.cells), name)

    def test_library(self) -> None:
        count = 0
        for stored in stored_maps():
            sheet = read_sheet(stored.sheet)
            kept = kept_boundaries(sheet)
            self.check(stored.name, sheet, kept, stored.numbers)
            self.assertEqual(partition(sheet.width, sheet.height, sheet.cells, sheet.spans), kept.partition, stored.name)
            self.assertEqual(sheet_bytes(sheet), stored.sheet, stored.name)
            count += 1
        self.assertGreater(count, 800)

    def test_rendering(self) -> None:
        """every fifth: the library's answers are compared with the same lists"""
        for stored in list(stored_maps())[::5]:
            sheet = unproved.read_sheet(stored.sheet)
            self.assertEqual(sheet, read_sheet(stored.sheet))
            self.check(stored.name, sheet, unproved.kept_boundaries(sheet), stored.numbers)


class Sheets(unittest.TestCase):
    def test_printed(self) -> None:
        """what `jenwyllt keptlist` answers, in the words of the program: 14, 1 and 11, 12 are at its limits"""
        refused = 0
        for data, printed in stored_sheets():
            for answers in (PROVED, UNPROVED):
                try:
                    said = answer(answers, data, False)[1].printed()
                except Refusal as refusal:
                    said = f'refused {refusal.number} at {refusal.place}\n'
                    self.assertNotIn('does not know', refusal.words)
                    refused += 1
                self.assertEqual(said, printed, data.hex())
        self.assertGreater(refused, 1000)


class Room(unittest.TestCase):
    """that lists grow where they are too short at first, and that the limits of a caller count"""

    def comb(self) -> Sheet:
        """64 corridors across 256 spans: more pairs and regions than there is room for at first"""
        width, height = 130, 127
        cells = bytes(1 if y % 2 == 0 else 0 for y in range(height) for _ in range(width))
        spans = tuple(Span(Point(8 * x, 0), Point(8 * x, 8 * height)) for x in range(1, 129))
        return Sheet(1, width, height, cells, spans, tuple(Boundary.of(*span, 8.0) for span in spans))

    def test_grown(self) -> None:
        sheet = self.comb()
        kept = kept_boundaries(sheet)
        self.assertEqual((kept.partition.regions, len(kept.records), len(kept.partition.pairs)), (64 * 129, 64 * 129, 64 * 128))
        self.assertEqual(len(kept.rows), 128)
        cut = partition(sheet.width, sheet.height, sheet.cells, sheet.spans)
        self.assertEqual(cut, kept.partition)

    def test_limits(self) -> None:
        sheet = self.comb()
        for records, pair_rows, number in ((64 * 129 - 1, None, 11), (None, 64 * 128 - 1, 12), (0, 0, 11)):
            with self.assertRaises(Refusal) as caught:
                kept_boundaries(sheet, records, pair_rows)
            self.assertEqual(caught.exception, Refusal(number, 0))
        self.assertEqual(len(kept_boundaries(sheet, 64 * 129, 64 * 128).rows), 128)

    def test_numbers(self) -> None:
        with self.assertRaises(ValueError):
            kept_boundaries(Sheet(1, 1, 1, b'\1', (Span(Point(-1, 0), Point(8, 8)),)))
        with self.assertRaises(ValueError):
            kept_boundaries(Sheet(1 << 64, 1, 1, b'\1'))
        self.assertEqual(flat([Point(1, 2), Span(Point(3, 4), Point(5, 6))]), [1, 2, 3, 4, 5, 6])
