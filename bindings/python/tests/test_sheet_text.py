"""Sheets as text: round trips over stored and made-up sheets, and what is said of bad input."""
import contextlib
import random
import unittest

from jenwyllt import Refusal, Sheet, read_sheet
from jenwyllt.sheet import Boundary, Point, Span, bits_of, sheet_bytes
from jenwyllt.sheet_text import Wrong, sheet_of, text_of

from .files import stored_maps, stored_sheets

CASE_J = '''pass 3
map 4 3
#0##
0000
##0#
boundary 16 8 16 16 8.0                    ; 0
boundary 8 8 8 16 8.0                      ; 1
boundary 8 8 16 8 8.0                      ; 2
boundary 24 8 24 16 8.0                    ; 3
boundary 16 16 24 16 8.0                   ; 4
'''


def plain(*ends: int) -> Boundary:
    return Boundary.of(Point(*ends[:2]), Point(*ends[2:]), 8.0)


def case_j() -> Sheet:
    boundaries = plain(16, 8, 16, 16), plain(8, 8, 8, 16), plain(8, 8, 16, 8), plain(24, 8, 24, 16), plain(16, 16, 24, 16)
    return Sheet(3, 4, 3, bytes([0, 1, 0, 0, 1, 1, 1, 1, 0, 0, 1, 0]), tuple(b.span for b in boundaries), boundaries)


def made_up(r: random.Random) -> Sheet:
    """any numbers that a sheet can hold, counts of spans and boundaries unequal or equal"""
    def some(*usual: int) -> int:
        return r.choice((*usual, 0, 1, 7, 255, 1 << 31, 1 << 63, (1 << 64) - 1, r.getrandbits(64)))

    def point() -> Point:
        return Point(some(), some())

    def width() -> int:
        return r.choice((*map(bits_of, (8.0, 1.5, float('inf'), float('nan'), -0.0, 5e-324, -1e300)), r.getrandbits(64)))
    w, h, n = r.randint(1, 6), r.randint(1, 6), r.choice((0, 1, 2, 3))
    boundaries = tuple(Boundary(point(), point(), width(), some(1, 2), some(), some(), some()) for _ in range(n))
    spans = [Span(point(), point()) if r.random() < 0.2 else boundary.span for boundary in boundaries]
    if r.random() < 0.3:
        spans.append(Span(point(), point()))
    elif r.random() < 0.2:
        spans = spans[1:]
    cells = bytes(r.choice((0, 1, 3, 15, r.randrange(256))) for _ in range(w * h))
    return Sheet(some(3), w, h, cells, tuple(spans), boundaries, tuple(point() for _ in range(r.choice((0, 0, 1, 2)))))


class RoundTrips(unittest.TestCase):
    def check(self, sheet: Sheet) -> None:
        text = text_of(sheet)
        again = sheet_of(text)
        self.assertEqual(again, sheet, text)
        self.assertEqual(text_of(again), text)
        self.assertEqual(read_sheet(sheet_bytes(sheet)), sheet, text)

    def test_case_j(self) -> None:
        self.assertEqual(sheet_of(CASE_J), case_j())
        self.assertEqual(text_of(case_j()), CASE_J)

    def test_stored(self) -> None:
        good = 0
        for data, _ in stored_sheets():
            with contextlib.suppress(Refusal):
                self.check(read_sheet(data))
                good += 1
        self.assertGreater(good, 100)
        for stored in stored_maps():
            self.check(read_sheet(stored.sheet))

    def test_made_up(self) -> None:
        for k in range(1000):
            self.check(made_up(random.Random(k)))

    def test_ends(self) -> None:
        wide, zero = Span(Point(0, 0), Point(8, 8)), Boundary(Point(0, 0), Point(8, 8), 0)
        self.check(Sheet(1, 1, 1, b'\0'))
        self.check(Sheet(1, 1024, 1, b'\xff' * 1024))
        self.check(Sheet(1, 1, 1024, b'\4' * 1024))
        self.check(Sheet(1, 16, 16, bytes(range(256))))
        self.check(Sheet(1, 2, 1, b'\0\1', (wide,) * 256, (zero,) * 256, (Point(0, 0),) * 256))
        self.check(Sheet(1, 2, 1, b'\0\1', (wide,) * 256))
        self.check(Sheet(1, 2, 1, b'\0\1', (), (zero,) * 256))


class Reading(unittest.TestCase):
    def test_comments_and_numbers(self) -> None:
        sheet = sheet_of('; a comment\n\npass 0x2 ; two\nmap 2 2\n ?# 0x10;\n\n; between\n ab\nboundary 0 0 0x8 8 1e1\nanchor 1 0')
        tenth = Boundary.of(Point(0, 0), Point(8, 8), 10.0)
        self.assertEqual(sheet, Sheet(2, 2, 2, bytes([16, 0, 3, 7]), (tenth.span,), (tenth,), (Point(1, 0),)))

    def test_any_order(self) -> None:
        sheet = sheet_of('anchor 0 0\r\nboundary 0 0 8 8 8\r\nspan 1 1 2 2\r\nmap 1 1\r\n0\r\npass 1\r\n')
        self.assertEqual(sheet, Sheet(1, 1, 1, b'\1', (Span(Point(1, 1), Point(2, 2)),), (plain(0, 0, 8, 8),), (Point(0, 0),)))

    def test_lists_of_spans(self) -> None:
        start = 'pass 1\nmap 1 1\n0\nboundary 0 0 8 8 8\nspans\n'
        self.assertEqual(sheet_of(start + 'span 1 1 2 2\nspan 3 3 4 4\n').spans, (Span(Point(1, 1), Point(2, 2)), Span(Point(3, 3), Point(4, 4))))
        self.assertEqual(sheet_of(start).spans, ())


class Errors(unittest.TestCase):
    def check(self, text: str, line: int, what: str) -> None:
        with self.assertRaises(Wrong) as caught:
            sheet_of(text)
        self.assertEqual(caught.exception.line, line, caught.exception)
        self.assertIn(what, str(caught.exception))
        self.assertLess(len(str(caught.exception)), 200)

    def test_lines(self) -> None:
        start = 'pass 1\nmap 2 1\n00\n'
        self.check('', 1, 'no line `pass`')
        self.check('map 1 1\n0\n', 3, 'no line `pass`')
        self.check('pass 1\n', 2, 'no line `map`')
        self.check('pass\n', 1, '1 numbers are needed')
        self.check('pass one\n', 1, "pass must be a whole number, not 'one'")
        self.check('pass -1\n', 1, 'whole number')
        self.check('pass 18446744073709551616\n', 1, 'over 64 bits')
        self.check('pass 1\npass 2\n', 2, 'a second line `pass`')
        self.check(start + 'map 1 1\n', 4, 'a second line `map`')
        self.check('map 0 1\n', 1, 'the width must be 1 to 1,024')
        self.check('map 1 1025\n', 1, 'the height must be 1 to 1,024')
        self.check('map 2 2\n00\n', 3, 'ends before row 2')
        self.check('map 2 2\n00\n000\n', 3, "this has 3: '000'")
        self.check('map 2 1\n0x\n', 2, "not 'x'")
        self.check('map 2 1\n0?\n', 2, '1 cells are drawn ?, and behind the row stand 0 numbers')
        self.check('map 2 1\n0? 256\n', 2, 'at most 255, not 256')
        self.check(start + 'border 1 2\n', 4, "not with 'border'")
        self.check(start + '\n;\nboundary 1 2 3\n', 6, 'a boundary is x y x y width')
        self.check(start + 'boundary 1 2 3 4 wide\n', 4, "the width must be a number, or 0x and the bits of a double, not 'wide'")
        self.check(start + 'boundary 1 2 3 4 nan\n', 4, 'the width must be a number')
        self.check(start + 'boundary 1 2 3 4 1e999\n', 4, 'beyond the doubles')
        self.check(start + 'boundary 1 2 3 4 8 middle 7 0 1\n', 4, "not 'middle'")
        self.check(start + 'boundary 1 2 3 4 8 lower 7 0 1 2\n', 4, '3 numbers are needed')
        self.check(start + 'boundary 1 2 3 4 8 kind 7 0 1\n', 4, '4 numbers are needed')
        self.check(start + 'span 1 2 3 4\n', 4, 'behind its boundary')
        self.check(start + 'boundary 1 2 3 4 8\nspan 1 2 3\n', 5, '4 numbers are needed')
        self.check(start + 'boundary 1 2 3 4 8\nspan 1 2 3 4\nspan 1 2 3 4\n', 6, 'has a span already')
        self.check(start + 'boundary 1 2 3 4 8\nspan 1 2 3 4\nspans\n', 6, 'either all spans')
        self.check(start + 'spans\nspans\n', 5, 'a second line `spans`')
        self.check(start + 'spans 3\n', 4, '0 numbers are needed')
        self.check(start + 'anchor 1\n', 4, '2 numbers are needed')
        self.check(start + 'anchor 1 1\n' * 257, 260, 'over 256 anchors')
        self.check(start + 'boundary 0 0 0 0 8\n' * 257, 260, 'over 256 boundaries')
        self.check(start + 'spans\n' + 'span 0 0 0 0\n' * 257, 261, 'over 256 spans')
        self.check('pass ' + '9' * 5000 + '\n', 1, 'over 64 bits')
        self.check(start + 'word' * 5000 + '\n', 4, "not with 'wordword")
