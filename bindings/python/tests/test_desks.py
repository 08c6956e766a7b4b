"""Two desks over one partition: stored calls, the package, and the command."""
import contextlib
import io
import json
import tempfile
import unittest
from collections.abc import Iterator
from dataclasses import dataclass
from pathlib import Path
from unittest import mock

from jenwyllt import Desk, Refusal, Sheet, kept_boundaries, read_sheet, sheet_bytes, two_desks
from jenwyllt.__main__ import main
from jenwyllt._library import U8, U16, U32, U64, lent
from jenwyllt.desks import TWO_DESKS
from jenwyllt.kept import Region
from jenwyllt.sheet import Boundary, Point, Span, grouped

from .files import EXAMPLES, VECTORS

KINDS = (U32, U16, U32, U32, U32)   # labels, masks, queue, tallies, pairs


@dataclass
class StoredDesk:
    pass_number: int
    boundaries: list[int]
    anchors: list[int]
    room: int


@dataclass
class StoredCall:
    order: int
    width: int
    height: int
    cells: list[int]
    spans: list[int]
    desks: list[StoredDesk]
    room: list[int]
    answers: list[int]
    filled: list[list[int]]         # what is changed in front of labels, masks, queue, tallies, pairs
    records: list[list[int]]
    outputs: list[list[int]]


def stored_calls() -> Iterator[StoredCall]:
    for line in (VECTORS / 'desks.txt').read_text().splitlines():
        part = [list(map(int, field.split())) for field in line.split(';')]
        desks = [StoredDesk(part[at][0], part[at + 1], part[at + 2], part[at + 3][0]) for at in (4, 8)]
        yield StoredCall(part[0][0], *part[1], part[2], part[3], desks, part[12], part[13], part[14:19], [list(record) for record in grouped(part[19], 11)], part[20:22])


def before(count: int) -> list[int]:
    """what a list holds before a call"""
    return [60_000 + i % 5_000 for i in range(count)]


def after(changed: list[int], count: int) -> list[int]:
    return changed + before(count)[len(changed):]


def numbers_of(record: Region) -> list[int]:
    return [int(n) for value in record.values().values() for n in (value if isinstance(value, list) else [value])]


class Stored(unittest.TestCase):
    def test_library(self) -> None:
        """answers, both outputs and every shared list, as told and in the other order"""
        seen: set[int] = set()
        for call in stored_calls():
            for order in (call.order, int(call.order == 0)):
                lists = [lent(kind, before(count)) for kind, count in zip(KINDS, call.room, strict=False)]
                records, outputs = lent(Region, call.room[5]), [lent(U64, before(desk.room)) for desk in call.desks]
                own = [(desk.pass_number, lent(U64, desk.boundaries), lent(U64, desk.anchors)) for desk in call.desks]
                answer = TWO_DESKS(order, call.width, call.height, lent(U8, call.cells), lent(U64, call.spans), *own[0], *own[1], *lists, records, *outputs)
                self.assertEqual([answer.route.number, answer.route.value, answer.coaching.number, answer.coaching.value], call.answers, call)
                for held, changed, count in zip(lists, call.filled, call.room, strict=False):
                    self.assertEqual(held[:], after(changed, count), call)
                for held, changed, desk in zip(outputs, call.outputs, call.desks, strict=True):
                    self.assertEqual(held[:], after(changed, desk.room), call)
                self.assertEqual([numbers_of(record) for record in records], call.records + [[0] * 11] * (call.room[5] - len(call.records)), call)
                seen |= {answer.route.number, answer.coaching.number}
        self.assertEqual(seen, {0, 1, 2, 3, 4, 5, 6, 7, 8, 9, 10, 11, 12, 20})


def example(name: str) -> Sheet:
    return read_sheet((EXAMPLES / f'{name}.sheet').read_bytes())


class Package(unittest.TestCase):
    def test_alone(self) -> None:
        """each desk has what a run with its lists alone has"""
        for name in ('case_j', 'mouths', 'interiors', 'junctions'):
            sheet = example(name)
            turned = Desk(3, [Boundary(b.end, b.start, b.width_bits, b.kind, b.ramp, b.lower, b.upper) for b in sheet.boundaries], [Point(0, 0)])
            for first in (False, True):
                found = two_desks(sheet.width, sheet.height, sheet.cells, sheet.spans, Desk.of(sheet), turned, first)
                alone = kept_boundaries(sheet)
                self.assertEqual((found.route, found.partition, found.records), (alone.rows, alone.partition, alone.records))
                other = kept_boundaries(Sheet(3, sheet.width, sheet.height, sheet.cells, sheet.spans, turned.boundaries, turned.anchors))
                self.assertEqual(found.coaching, other.rows)

    def test_refused(self) -> None:
        sheet = example('case_j')
        found = two_desks(sheet.width, sheet.height, sheet.cells, sheet.spans, Desk(3, sheet.boundaries[:4], []), Desk.of(sheet))
        self.assertEqual(found.route, Refusal(20, 4))
        self.assertEqual(found.coaching, kept_boundaries(sheet).rows)
        with self.assertRaises(Refusal) as refused:
            two_desks(sheet.width, sheet.height, sheet.cells, [Span(Point(0, 0), Point(0, 0))], Desk.of(sheet), Desk.of(sheet))
        self.assertEqual(refused.exception, Refusal(6, 0))


class Command(unittest.TestCase):
    def said(self, *words: str) -> tuple[int, str, str]:
        out, wrong = io.TextIOWrapper(io.BytesIO()), io.StringIO()
        with mock.patch('sys.stdout', out), contextlib.redirect_stderr(wrong):
            status = main(['desks', *words])
            out.flush()
        return status, out.buffer.getvalue().decode(), wrong.getvalue()  # type: ignore[attr-defined]

    def test_rows(self) -> None:
        shared = str(EXAMPLES / 'case_j.sheet')
        kept = (EXAMPLES / 'case_j.kept').read_text()
        for words in ([], ['--coaching-first']):
            self.assertEqual(self.said(*words, shared, shared, str(EXAMPLES / 'case_j.txt')), (0, f'route:\n{kept}coaching:\n{kept}', ''))

    def test_refused_desk(self) -> None:
        """the other desk is answered"""
        shared, kept = str(EXAMPLES / 'case_j.sheet'), (EXAMPLES / 'case_j.kept').read_text()
        sheet = example('case_j')
        fewer = Sheet(3, sheet.width, sheet.height, sheet.cells, sheet.spans, sheet.boundaries[:4], sheet.anchors)
        with tempfile.TemporaryDirectory() as folder:
            name = str(Path(folder) / 'fewer.sheet')
            Path(name).write_bytes(sheet_bytes(fewer))
            status, out, wrong = self.said(shared, name, shared)
            self.assertEqual((status, out), (1, f'coaching:\n{kept}'))
            self.assertIn('refused 20 at 4: there is no boundary for shared span 4 from 16 16 to 24 16', wrong)
            status, out, _ = self.said('--json', shared, name, shared)
            self.assertEqual((status, json.loads(out)['route']['refused']['number']), (1, 20))

    def test_other_ground(self) -> None:
        """a desk's sheet must have the shared sides and cells"""
        status, out, wrong = self.said(*(str(EXAMPLES / f'{name}.sheet') for name in ('case_j', 'case_j', 'mouths')))
        self.assertEqual((status, out), (2, ''))
        self.assertIn('but the shared map has 4 by 3', wrong)


if __name__ == '__main__':
    unittest.main()
