"""The stored shares, replayed through the library."""
import unittest
from pathlib import Path

from jenwyllt import Share, dominance
from jenwyllt.unproved import dominance as rendered

STORED = Path(__file__).parents[3] / 'vectors' / 'dominance.txt'


class Stored(unittest.TestCase):
    def test_stored(self) -> None:
        lines = STORED.read_text().splitlines()
        self.assertGreaterEqual(len(lines), 500)
        shares = set()
        for line in lines:
            cells, *counts, elevation, has_share, percent, remainder = map(int, line.split())
            found = dominance(cells, counts)
            self.assertEqual(found, (elevation, Share(percent, remainder) if has_share else None), line)
            self.assertEqual(found, rendered(cells, counts), line)
            shares.add(found.share is None)
        self.assertEqual(shares, {True, False})

    def test_exact(self) -> None:
        for cells, counts in ((99, (0, 98, 1, 0)), (100, (1, 0, 0, 99)), (7, (3, 3, 1, 0)), (2 ** 32 - 1, (2 ** 32 - 2, 0, 0, 1))):
            elevation, share = dominance(cells, counts)
            self.assertEqual(counts[elevation] * 100, share.percent * cells + share.remainder)
            self.assertTrue(0 <= share.remainder < cells)

    def test_over_32_bits(self) -> None:
        with self.assertRaises(ValueError):
            dominance(2 ** 32, (0, 0, 0, 0))
        with self.assertRaises(ValueError):
            dominance(1, (0, 0, -1, 0))
