"""The cases of the scope paper, and a few of the reader, against the rendering in Python."""
import unittest

from jenwyllt.unproved import hypotenuse, reference
from jenwyllt.unproved.hypotenuse import answer, bits, double
from jenwyllt.unproved.reference import Assessment, Boundary, Map, RegionStats
from jenwyllt.unproved.sheet_bytes import keptlist, number_bytes, sheet_of

EIGHT = bits(8.0)


def plain(*ends):
    return [*ends, EIGHT, 0, 0, 0, 0]


def case_j(pass_number=3):
    spans = [16, 8, 16, 16, 8, 8, 8, 16, 8, 8, 16, 8, 24, 8, 24, 16, 16, 16, 24, 16]
    boundaries = [n for i in range(0, 20, 4) for n in plain(*spans[i:i + 4])]
    return Map(pass_number, 4, 3, [0, 1, 0, 0, 1, 1, 1, 1, 0, 0, 1, 0], spans, boundaries, [])


class Cases(unittest.TestCase):
    def test_case_j(self):
        self.assertEqual(keptlist(sheet_of(case_j())), 'kept 4 of 5\n1 8 8 8 16\n2 8 8 16 8\n4 16 16 24 16\n3 24 8 24 16\n')

    def test_hypotenuse(self):
        def root(x, y):
            return answer(bits(x), bits(y))
        self.assertEqual(root(3.0, 4.0), (0, bits(5.0)))
        self.assertEqual(root(0.0, 0.0), (0, 0))
        self.assertEqual(root(-0.0, -0.0), (0, 0))
        self.assertEqual(root(1.0, 1.0), (0, 0x3FF6A09E667F3BCD))
        self.assertEqual(answer(0x408b95146a80e448, 0x40c21f1b4712be68), (0, 0x40c2340cee12a684))     # a tie, down
        self.assertEqual(answer(0x40b7735837b91fd3, 0x40c006248ed7952e), (0, 0x40c3db12360d9a66))     # a tie, up
        for x in (float('nan'), float('inf'), -float('inf'), 2.0 ** -65, 32769.0, 5e-324):
            self.assertEqual(root(x, 1.0), (13, 0))
            self.assertEqual(root(0.0, -x), (13, 0))
        self.assertEqual(root(2.0 ** -64, 2.0 ** 15), (0, bits(2.0 ** 15)))
        self.assertEqual(double(hypotenuse.root_bits(4 * 9)), 6 * 5e-324)

    def test_ports(self):
        near = reference.distance((0.0, 0.0), (384.0, 0.0)), reference.distance((0.0, 0.0), (384.5, 0.0))
        self.assertTrue(near[0] <= reference.MAX_PORT_DISTANCE_PIXELS < near[1])

    def test_dominance(self):
        def stats(*counts):
            return RegionStats(cells=sum(counts), elevation_counts=list(counts))
        self.assertEqual(reference.dominance(stats(0, 99, 1, 0)), (1, (99, 0)))
        self.assertEqual(reference.dominance(stats(0, 98, 1, 0)), (1, (98, 98)))
        self.assertEqual(reference.dominance(stats(0, 0, 0, 0)), (0, None))
        self.assertEqual(reference.dominance(stats(0, 3, 0, 3)), (1, (50, 0)))
        self.assertTrue(reference.same_dominance(stats(0, 99, 1, 0), stats(0, 1, 0, 0)))
        self.assertFalse(reference.same_dominance(stats(0, 99, 1, 0), stats(0, 98, 1, 0)))
        self.assertFalse(reference.same_dominance(stats(0, 99, 1, 0), stats(0, 0, 1, 0)))

    def test_star(self):
        self.assertEqual(reference.star(Assessment(2, 2, [(1, 2), (1, 3)])), ('star', 1, [2, 3]))
        self.assertEqual(reference.star(Assessment(2, 2, [(1, 2), (3, 4)])), None)

    def test_bridge_widths(self):
        # a pocket (label 1) with two ways to 2 and one to 3, which is anchored
        for wide, expected in ((16.0, [1, 2]), (15.5, [0, 1, 2])):
            boundaries = [Boundary(((0, 0), (8, 0)), w, None) for w in (wide, 8.0, 8.0)]
            ctx = reference.Context(reference.Grid(3, 1, [1, 1, 1]), [1, 2, 3],
                                    [Assessment(1, 1, [(1, 2)]), Assessment(1, 1, [(1, 2)]), Assessment(1, 1, [(1, 3)])], [(2, 0)])
            self.assertEqual([row[0] for row in reference.remove_junction_boundaries(boundaries, ctx)], expected)

    def test_mouth(self):
        spans = [8, 0, 8, 8, 16, 0, 16, 8]
        boundaries = plain(8, 0, 8, 8) + [16, 0, 16, 8, EIGHT, 1, 7, 0, 1]
        self.assertEqual(keptlist(sheet_of(Map(1, 3, 1, [1, 1, 1], spans, boundaries, []))), 'kept 1 of 2\n1 16 0 16 8\n')

    def test_interior(self):
        spans = [8, 0, 8, 8, 16, 0, 16, 8, 24, 0, 24, 8]
        boundaries = [8, 0, 8, 8, EIGHT, 1, 7, 0, 1] + plain(16, 0, 16, 8) + [24, 0, 24, 8, EIGHT, 2, 7, 0, 1]
        self.assertEqual(keptlist(sheet_of(Map(2, 4, 1, [1, 3, 1, 1], spans, boundaries, []))),
                         'kept 2 of 3\n0 8 0 8 8\n2 24 0 24 8\n')


class Sheets(unittest.TestCase):
    def check(self, data, expected):
        self.assertEqual(keptlist(bytes(data)), expected + '\n')

    def test_reader(self):
        whole = sheet_of(Map(1, 1, 1, [1]))
        self.check(whole, 'kept 0 of 0')
        self.check(b'', 'refused 14 at 0')
        for k in range(len(whole)):
            self.check(whole[:k], f'refused 14 at {k}')
        self.check(whole + b'\0', f'refused 14 at {len(whole)}')
        self.check([2], 'refused 14 at 0')
        self.check([0x81, 0x80, 0] + list(whole[1:]), 'refused 14 at 0')                   # padded
        self.check([1, 0x80, 0], 'refused 14 at 1')                                        # zero in two bytes
        self.check([1, 0x81, 0x80], 'refused 14 at 3')                                     # without its last byte an early end
        self.check([1, 0x80, 0x80, 1] + list(whole[2:]), 'refused 4 at 0')                 # 16,384: a group of zero inside
        self.check([1] + [0x80] * 9, 'refused 14 at 10')                                   # an early end
        self.check([1] + [0x80] * 9 + [2], 'refused 14 at 1')                              # too long
        self.check([1] + [0xff] * 9 + [1] + list(whole[2:]), 'refused 4 at 0')             # 64 bits
        self.check([1, 1, 0, 1], 'refused 1 at 0')
        self.check([1, 1, 0], 'refused 14 at 3')
        self.check([1, 1, 65, 64], 'refused 1 at 0')                                       # 4,160 cells
        self.check([1, 1, 1, 1] + list(number_bytes(256)), 'refused 14 at 4')
        self.check([1, 9, 1, 1, 1] + list(number_bytes(257)), 'refused 3 at 0')
        self.check(bytes(65537), 'refused 14 at 65536')
        self.check([1] + [0] * 65535, 'refused 1 at 0')
