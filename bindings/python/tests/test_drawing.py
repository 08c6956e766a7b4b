"""Pictures of maps: that they are well formed and show what they should; and kept lists read back."""
import unittest
import xml.etree.ElementTree as ElementTree

from jenwyllt import Sheet, kept_boundaries, read_sheet, sheet_bytes, write_sheet
from jenwyllt.drawing import KEPT, REMOVED, Picture
from jenwyllt.kept_list import UNPROVED, WrongList, read_kept
from jenwyllt.sheet_text import sheet_of

from .files import EXAMPLES, NAMES, PICTURES, stored_maps
from .test_sheet_text import case_j

KEPT_J = 'kept 4 of 5\n1 8 8 8 16\n2 8 8 16 8\n4 16 16 24 16\n3 24 8 24 16\n'


def strokes(picture: str, colour: str) -> int:
    """how many lines of the map have this colour; the first group is the map, the second the legend"""
    space = '{http://www.w3.org/2000/svg}'
    drawn, _ = ElementTree.fromstring(picture).findall(f'{space}g')
    return len([line for line in drawn.iter(f'{space}line') if line.get('stroke') == colour])


def drawn(sheet: Sheet, **more: object) -> str:
    kept = kept_boundaries(sheet)
    return Picture(sheet, kept.partition, [row.number for row in kept.rows], **more).svg()


class Pictures(unittest.TestCase):
    def test_case_j(self) -> None:
        picture = drawn(case_j())
        self.assertEqual((strokes(picture, KEPT), strokes(picture, REMOVED)), (4, 1))
        self.assertIn('pass 3: 4 of 5 boundaries kept<', picture)
        self.assertIn('region and its label (of 6)', picture)

    def test_title(self) -> None:
        self.assertIn('>A &lt; B<', drawn(case_j(), title='A < B'))
        self.assertIn('kept (unproved)<', drawn(case_j(), proved=False))

    def test_stored(self) -> None:
        for stored in list(stored_maps())[::6]:
            sheet = read_sheet(stored.sheet)
            picture, kept = drawn(sheet), len(stored.numbers['rows']) // 5
            self.assertEqual((strokes(picture, KEPT), strokes(picture, REMOVED)), (kept, len(sheet.boundaries) - kept), stored.name)

    def test_examples(self) -> None:
        """each example: the text makes the sheet, the sheet the kept list, both the picture"""
        self.assertGreaterEqual(len(NAMES), 4)
        for name in NAMES:
            text, data, kept = ((EXAMPLES / f'{name}.{kind}').read_bytes() for kind in ('txt', 'sheet', 'kept'))
            writer = sheet_bytes if name == 'case_j' else write_sheet             # one stays of the old kind
            self.assertEqual(writer(sheet_of(text.decode())), data, name)
            self.assertEqual(kept_boundaries(read_sheet(data)).printed(), kept.decode(), name)
            self.assertEqual(drawn(read_sheet(data)), (PICTURES / f'{name}.svg').read_text(), name)

    def test_no_boundaries(self) -> None:
        self.assertIn('blocked', drawn(Sheet(1, 1, 1, b'\0')))


class KeptLists(unittest.TestCase):
    def check(self, text: str, what: str) -> None:
        with self.assertRaises(WrongList) as caught:
            read_kept(text, case_j())
        self.assertIn(what, str(caught.exception))

    def test_read(self) -> None:
        self.assertEqual(read_kept(KEPT_J, case_j()), [1, 2, 4, 3])
        self.assertEqual(read_kept(KEPT_J + UNPROVED, case_j()), [1, 2, 4, 3])

    def test_wrong(self) -> None:
        self.check('refused 7 at 2\n', 'line 1: the kept list is a refusal: refused 7 at 2')
        self.check('', 'line 1: a kept list begins with `kept K of N`')
        self.check('kept 4\n', 'line 1: a kept list begins')
        self.check('kept four of 5\n', 'line 1: a kept list begins')
        self.check('kept 0 of 6\n', 'line 1: the list is of 6 boundaries, and the map has 5')
        self.check('kept 2 of 5\n1 8 8 8 16\n', 'line 1: 2 rows are announced, and there are 1')
        self.check(KEPT_J + '\n', 'line 1: 4 rows are announced, and there are 5')
        self.check('kept 1 of 5\n1 8 8 8\n', 'line 2: a row is a number and x y x y')
        self.check('kept 1 of 5\n1 8 8 8 -16\n', 'line 2: a row is a number and x y x y')
        self.check('kept 1 of 5\n5 8 8 8 16\n', 'line 2: there is no boundary 5: the map has 5')
        self.check('kept 1 of 5\n1 8 8 8 17\n', 'line 2: boundary 1 lies at 8 8 8 16, not at 8 8 8 17')
        self.check('kept 2 of 5\n1 8 8 8 16\n1 8 8 8 16\n', 'line 3: boundary 1 stands twice')
        self.check('kept 2 of 5\n2 8 8 16 8\n1 8 8 8 16\n', 'line 3: the rows are not in order')
