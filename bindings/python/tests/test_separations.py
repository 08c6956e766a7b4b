"""The list of separations: stored calls, the bound, what is refused, and the command."""
import contextlib
import io
import json
import re
import tempfile
import unittest
from collections.abc import Iterator
from dataclasses import dataclass
from fractions import Fraction
from pathlib import Path
from unittest import mock

from jenwyllt import Boundary, Point, Refusal, Separation, read_sheet, separations
from jenwyllt.__main__ import main
from jenwyllt._library import U64, lent
from jenwyllt.separations import BOUND, SEPARATION_NUMBERS, SEPARATIONS, pair_count
from jenwyllt.sheet import BOUNDARY_NUMBERS, Span, grouped
from jenwyllt.unproved.separations import exact_square
from jenwyllt.unproved.separations import separations as rendered

from . import declarations
from .files import EXAMPLES, NAMES, ROOT, VECTORS

BEFORE = 60_000                     # what an output holds before a call; no row has it


@dataclass
class StoredCall:
    width: int
    height: int
    boundaries: list[int]
    room: int
    number: int
    value: int
    rows: list[Separation]


def stored_calls() -> Iterator[StoredCall]:
    for line in (VECTORS / 'separations.txt').read_text().splitlines():
        width, height, count, *rest = map(int, line.split(' '))
        room, number, value, *numbers = rest[count:]
        yield StoredCall(width, height, rest[:count], room, number, value, [Separation(*five) for five in grouped(numbers, SEPARATION_NUMBERS)])


def within(each: Separation) -> bool:
    """by squares: the root is at most the value and 2^-32, and at least the value less 2^-32"""
    value = Fraction(each.value)
    low = max(value - BOUND, Fraction(0))
    return low ** 2 <= each.square <= (value + BOUND) ** 2


class Stored(unittest.TestCase):
    def test_library(self) -> None:
        """number and value, every row, and what stands behind the rows; of a refused call the whole output"""
        numbers, rows = set(), 0
        for call in stored_calls():
            output = lent(U64, [BEFORE] * call.room)
            answer = SEPARATIONS(call.width, call.height, lent(U64, call.boundaries), output)
            self.assertEqual((answer.number, answer.value), (call.number, call.value), call)
            found = [Separation(*five) for five in grouped(output[:SEPARATION_NUMBERS * len(call.rows)], SEPARATION_NUMBERS)]
            for each, expected in zip(found, call.rows, strict=True):
                self.assertEqual((each[:3], each.square), (expected[:3], expected.square), call)
                self.assertTrue(within(each))
                self.assertEqual(each.bits == 0, each.square == 0)
            self.assertEqual(set(output[SEPARATION_NUMBERS * len(call.rows):]), {BEFORE} if call.room > SEPARATION_NUMBERS * len(call.rows) else set(), call)
            numbers.add(call.number)
            rows += len(call.rows)
        self.assertEqual(numbers, {0, 1, 3, 7, 10})
        self.assertGreater(rows, 400)

    def test_rendering(self) -> None:
        for call in stored_calls():
            if call.number == 0:
                boundaries = [Boundary.of_numbers(nine) for nine in grouped(call.boundaries, BOUNDARY_NUMBERS)]
                self.assertEqual(rendered(call.width, call.height, boundaries), call.rows, call)


class Exact(unittest.TestCase):
    def span(self, *four: int) -> Span:
        return Span.of_numbers(four)

    def test_squares(self) -> None:
        """crossing, an end inside, one line, no length; apart at an end, along a perpendicular, on one line"""
        for s, t, square in (((0, 0, 4, 4), (0, 4, 4, 0), 0), ((0, 0, 4, 4), (2, 2, 5, 1), 0), ((0, 0, 2, 0), (1, 0, 4, 0), 0), ((0, 0, 4, 4), (2, 2, 2, 2), 0),
                             ((1, 1, 1, 1), (1, 1, 1, 1), 0), ((0, 0, 1, 0), (3, 0, 4, 0), 4), ((0, 0, 4, 4), (3, 2, 5, 1), Fraction(1, 2)),
                             ((0, 0, 0, 0), (3, 4, 3, 4), 25), ((0, 0, 8192, 8191), (1, 1, 1, 1), Fraction(1, 134201345)), ((0, 0, 4, 0), (2, 3, 9, 9), 9)):
            for first, second in ((s, t), (t, s), (s[2:] + s[:2], t)):
                self.assertEqual(exact_square(self.span(*first), self.span(*second)), square)
                width = 1024
                found = separations(width, width, [Boundary.of(Point(*four[:2]), Point(*four[2:]), 8.0) for four in (first, second)])
                self.assertEqual([each.square for each in found], [square])
                self.assertTrue(within(found[0]))

    def test_bound(self) -> None:
        """a value beyond the bound is told from one within it"""
        exact = Separation(0, 1, 4611686018427387904, 4, 1)
        self.assertTrue(within(exact))
        self.assertFalse(within(exact._replace(numerator=4 * 2 ** 30 + 5, denominator=2 ** 30)))

    def test_refusals(self) -> None:
        fits, unfit = Boundary.of(Point(0, 0), Point(8, 8), 8.0), Boundary.of(Point(0, 0), Point(9, 8), 8.0)
        for sides, boundaries, refusal in (((0, 1), [], Refusal(1)), ((1, 1), [fits] * 257, Refusal(3)), ((1, 1), [fits, unfit], Refusal(7, 1))):
            for listed in (separations, rendered):
                with self.assertRaises(Refusal) as caught:
                    listed(*sides, boundaries)
                self.assertEqual(caught.exception, refusal)
        self.assertEqual(len(separations(1, 1, [fits] * 256)), pair_count(256))


    def test_sizes(self) -> None:
        """how many numbers a row has: the definitions, the header and Python"""
        definition = re.search(r'^numbers_per_separation = (\d+)$', (ROOT / 'crates' / 'separations' / 'specs' / 'Listing.antt').read_text(), re.M)
        self.assertEqual((int(definition[1]), declarations.header_enum('jenwyllt_size')['SEPARATION_NUMBERS']), (SEPARATION_NUMBERS, SEPARATION_NUMBERS))


class Command(unittest.TestCase):
    def run_it(self, *words: str) -> tuple[int, str, str]:
        out, err = io.TextIOWrapper(io.BytesIO(), write_through=True), io.StringIO()
        with mock.patch('sys.stdout', out), contextlib.redirect_stderr(err):
            try:
                status = main(['separations', *words])
            except SystemExit as left:
                status = int(left.code or 0)
        return status, out.buffer.getvalue().decode(), err.getvalue()

    def test_printed(self) -> None:
        status, out, _ = self.run_it(str(EXAMPLES / 'case_j.sheet'))
        first, *rows = out.splitlines()
        self.assertEqual((status, first), (0, '10 separations of 5 boundaries in pixels, each within 2^-32 of the root of its exact square'))
        self.assertEqual(rows[:3], ['0 1 8.0 4020000000000000 64/1', '0 2 0.0 0000000000000000 0/1', '1 2 0.0 0000000000000000 0/1'])

    def test_text_and_sheet(self) -> None:
        for name in NAMES:
            self.assertEqual(self.run_it(str(EXAMPLES / f'{name}.txt')), self.run_it(str(EXAMPLES / f'{name}.sheet')))

    def test_one_boundary(self) -> None:
        status, out, _ = self.run_it('--boundary', '3', str(EXAMPLES / 'case_j.sheet'))
        self.assertEqual((status, [line.split(' ')[:2] for line in out.splitlines()[1:]]), (0, [['0', '3'], ['1', '3'], ['2', '3'], ['3', '4']]))
        status, out, err = self.run_it('--boundary', '5', str(EXAMPLES / 'case_j.sheet'))
        self.assertEqual((status, out), (2, ''))
        self.assertIn('numbered from 0', err)

    def test_json(self) -> None:
        path = EXAMPLES / 'mouths.sheet'
        status, out, _ = self.run_it('--json', str(path))
        said = json.loads(out)
        sheet = read_sheet(path.read_bytes())
        rows = separations(sheet.width, sheet.height, sheet.boundaries)
        self.assertEqual((status, said['bound'], said['boundaries'], said['proved']), (0, '2^-32', len(sheet.boundaries), True))
        self.assertEqual([(*each['boundaries'], each['separation'], int(each['bits'], 16), *each['square']) for each in said['separations']],
                         [(row.smaller, row.larger, row.value, row.bits, row.numerator, row.denominator) for row in rows])

    def test_unproved(self) -> None:
        """the same rows but for the terms of the squares, and a line that says who answers"""
        _, proved, _ = self.run_it('--json', str(EXAMPLES / 'mouths.sheet'))
        _, unproved, _ = self.run_it('--json', '--unproved', str(EXAMPLES / 'mouths.sheet'))
        one, other = json.loads(proved), json.loads(unproved)
        for each in (*one['separations'], *other['separations']):
            each['square'] = Fraction(*each['square'])
        self.assertEqual((one['separations'], other['proved']), (other['separations'], False))

    def test_refused(self) -> None:
        status, out, err = self.run_it(str(EXAMPLES / 'README.md'))
        self.assertEqual((status, out), (1, ''))
        self.assertNotEqual(err, '')
        status, out, err = self.run_it('--json', str(EXAMPLES / 'README.md'))
        self.assertEqual((status, list(json.loads(out)), err), (1, ['file', 'proved', 'wrong'], ''))

    def test_unfit(self) -> None:
        """a boundary off the map, in words and in JSON"""
        text = 'pass 1\nmap 1 1\n0\nboundary 0 0 8 8 8.0\nboundary 0 0 9 8 8.0\n'
        with tempfile.TemporaryDirectory() as folder:
            path = Path(folder) / 'unfit.txt'
            path.write_text(text)
            status, out, err = self.run_it(str(path))
            self.assertEqual((status, out), (1, ''))
            self.assertIn('refused 7 at 1: boundary 1 from 0 0 to 9 8', err)
            status, out, _ = self.run_it('--json', str(path))
            self.assertEqual((status, json.loads(out)['refused']['number']), (1, 7))


if __name__ == '__main__':
    unittest.main()
