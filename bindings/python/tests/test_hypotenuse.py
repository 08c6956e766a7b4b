"""The stored hypotenuses, replayed through the library."""
import struct
import unittest
from pathlib import Path

from jenwyllt import Refusal
from jenwyllt.hypotenuse import hypot, hypotenuse

STORED = Path(__file__).parents[3] / 'vectors' / 'hypotenuse.txt'


def double(digits: str) -> float:
    return struct.unpack('>d', bytes.fromhex(digits))[0]


def digits(value: float) -> str:
    return struct.pack('>d', value).hex()


class Stored(unittest.TestCase):
    def test_stored(self) -> None:
        lines = STORED.read_text().splitlines()
        self.assertGreaterEqual(len(lines), 20_000)
        for line in lines:
            x, y, number, root = line.split()
            if number == '0':
                self.assertEqual(digits(hypotenuse(double(x), double(y))), root, line)
            else:
                with self.assertRaises(Refusal) as caught:
                    hypotenuse(double(x), double(y))
                self.assertEqual(caught.exception.number, int(number))
            self.assertEqual(digits(hypot(double(x), double(y))), root, line)
