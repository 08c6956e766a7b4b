"""That the library answers vectors/results.txt, good and damaged result sheets, as stored, and leaves in every lent entry what it must."""
from __future__ import annotations

import unittest
from collections import Counter
from collections.abc import Iterator

from jenwyllt._library import U8, U64, lent
from jenwyllt.results import READ_RESULT, WRITE_RESULT

from .files import VECTORS

FILL = 0xa5a5a5a5a5a5a5a5
SIZES = 1, 2, 3, 5                  # numbers of a label, a span's tallies, a pair row and a kept row


def numbers(text: str) -> list[int]:
    return list(map(int, text.split()))


def stored(kind: str) -> Iterator[list[str]]:
    """the parts of each case of this kind, without its word"""
    for line in (VECTORS / 'results.txt').read_text().splitlines():
        word, _, rest = line.partition(' ')
        if word == kind:
            yield rest.split(';')


class Stored(unittest.TestCase):
    def test_read(self) -> None:
        seen: Counter[int] = Counter()
        for data, rooms, said, *read in stored('read'):
            lists = [lent(U64, [FILL] * room) for room in numbers(rooms)]
            answer = READ_RESULT(lent(U8, bytes.fromhex(data)), *lists)
            expected = [numbers(each) for each in read[1:]] or [[]] * 4
            counts = [len(each) // size for each, size in zip(expected, SIZES)]
            seen[answer.number] += 1
            self.assertEqual([answer.number, answer.place], numbers(said), data)
            self.assertEqual([answer.regions, answer.labels, answer.spans, answer.pairs, answer.rows], [int(read[0]) if read else 0, *counts], data)
            for each, held in zip(expected, lists):
                self.assertEqual(held[:], each + [FILL] * (len(held) - len(each)), data)
        self.assertEqual(sorted(seen), [0, 10, 14, 15])
        self.assertGreater(min(seen.values()), 30)

    def test_write(self) -> None:
        seen: Counter[int] = Counter()
        for regions, *lists, room, said, written in (case + [''] * (8 - len(case)) for case in stored('write')):
            out = lent(U8, bytes([FILL % 256]) * int(room))
            answer = WRITE_RESULT(int(regions), *(lent(U64, numbers(each)) for each in lists), out)
            sheet = bytes.fromhex(written)
            seen[answer.number] += 1
            self.assertEqual([answer.number, answer.value], numbers(said), lists)
            self.assertEqual(bytes(out), sheet + bytes([FILL % 256]) * (len(out) - len(sheet)), lists)
        self.assertEqual(sorted(seen), [0, 3, 10, 15])


if __name__ == '__main__':
    unittest.main()
