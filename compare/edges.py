"""Maps drawn for one comparison each: what decides there is one test of the definitions, just met or just missed.

    python3 edges.py [count] [seed]         reports how often each kind of proposal was made, refused and taken

The families of generate.py draw what a map may look like; these draw the cases that such maps leave out (docs/MUTANTS.md): which of two
separations is less, one corner out of range, one of two centres in range, three regions that only look like a triangle, leaves that touch one
another, equal ranks, the least and the greatest ids and elevations. A boundary may lie anywhere, whatever its span cuts; most families use that.
`corner_maps` picks from them those that make_vectors.py stores: one for each corner that a test on 512 pixels could leave out.
"""
import random
from collections import Counter

import package  # noqa: F401
import generate
from plan import Plan, flipped, padded, transposed
from jenwyllt.unproved import reference


def placed(p, ends, *cuts):
    """the boundaries of these cuts, or of all, at `ends`; their spans stay"""
    for c in cuts or range(len(p.cuts)):
        p.cuts[c][1] = list(ends)


# ---- pass 1: separations and representatives

def separations(r):
    """two mouths for one end of a ramp: the one of less separation goes, so that every two separations are compared"""
    p = Plan(r.choice((5, 6)), 5)
    p.room(0, 0, 3, 0)
    p.across(1, 0, 0, width=16.0)
    p.across(2, 0, 0, width=8.0, kind=r.choice((1, 2)), ramp=7)
    p.across(3, 0, 0, width=16.0)
    step = r.choice((1, 2, 8))
    most = r.choice((2, 3, 4, 5))
    for k in range(3):
        placed(p, [step * r.randint(0, most) for _ in range(4)], k)
    return p


def corridor(r, width, height, mouth_width):
    """outer, mouth, approach, ramp and what lies beyond, in three cells"""
    p = Plan(width, height)
    p.room(0, 0, 2, 0)
    p.across(1, 0, 0, width=mouth_width)
    p.across(2, 0, 0, width=8.0, kind=r.choice((1, 2)), ramp=7)
    return p


def slanted(r):
    """mouth and ramp about parallel, at any angle, side by side or one behind the other; alike in width, or only near one another"""
    p = corridor(r, 20, 20, r.choice((8.0, 12.0, 14.0)))
    while True:
        if r.random() < 0.3:
            v = r.choice(((1, 0), (0, 1), (1, 1), (2, 0), (0, 1)))
        else:
            v = (r.randint(0, 48), r.randint(-48, 48))
        length = max(1.0, (v[0] ** 2 + v[1] ** 2) ** 0.5)
        aside = r.choice((0, 8, 30, 32, 40, 56, 63, 64, 65, 70)) * r.choice((1, -1)) / length
        ahead = r.choice((0, 0, 0.2, 0.25, 0.3, 0.5, 1, 12 / length, 33 / length, 40 / length)) * r.choice((1, -1))
        w = v
        turn = r.random()
        if turn < 0.3:
            w = tuple(c + r.choice((0, 0, -3, -1, 1, 3, 8)) for c in v)
        elif turn < 0.6:                                                # one end nearer than 64 pixels, the other farther
            aside, ahead = r.choice((61, 63, 66)) * r.choice((1, -1)) / length, 0
            lean = r.choice((2, 4, -3)) * r.choice((1, -1)) / length
            w = (round(v[0] - lean * v[1]), round(v[1] + lean * v[0]))
        a = (r.randint(40, 120), r.randint(40, 120))
        b = (round(a[0] + ahead * v[0] - aside * v[1]), round(a[1] + ahead * v[1] + aside * v[0]))
        ramp, mouth = [*a, a[0] + v[0], a[1] + v[1]], [*b, b[0] + w[0], b[1] + w[1]]
        if all(0 <= c <= 160 for c in ramp + mouth):
            placed(p, mouth, 0)
            placed(p, ramp, 1)
            return p


# ---- one corner of a region out of range

def far_end(r, x, top, rows):
    """a short upright segment about 512 pixels from the edge x of a room, beside its upper edge, its middle or its lower edge"""
    far = x + r.choice((511, 512, 512, 512, 513))
    y = r.choice((top, top + 4 * rows, top + 8 * rows))
    half = r.choice((1, 4, 8))
    return far, y - half, far, y + half


def one_corner(r):
    """a long room of each pass; all boundaries lie where one or two of its corners are just out of range"""
    long, rows = r.choice((60, 62, 63, 64)), r.choice((1, 2))
    style = r.randrange(5)
    p = Plan(72, rows + 4)
    p.room(1, 2, long, rows + 1)
    left = 1
    if style == 0:                                                      # an approach
        p.room(0, 2, 0, rows + 1)
        p.room(long + 1, 2, long + 1, rows + 1)
        p.across(1, 2, rows + 1)
        p.across(long + 1, 2, rows + 1, kind=1, ramp=7)
    elif style == 1:                                                    # an interior
        p.room(0, 2, 0, rows + 1)
        p.room(long + 1, 2, long + 2, rows + 1)
        p.cells[2][1] = 3
        p.across(1, 2, rows + 1, kind=1, ramp=7, upper=1)
        p.across(long + 1, 2, rows + 1)
        p.across(long + 2, 2, rows + 1, kind=2, ramp=7, upper=1)
    elif style == 2:                                                    # a pocket
        p.room(long - 2, 0, long, 0)
        p.cells[1][long - 2] = p.cells[1][long] = 1
        p.along(2, long - 2, long - 2, width=16.0)
        p.along(2, long, long)
        p.cells[rows + 2][long] = 1
        p.along(rows + 2, long, long)
        p.anchors.append((long, rows + 2))
    else:                                                               # a union
        p.room(long + 1, 2, long + 2, rows + 1)
        p.across(long + 1, 2, rows + 1, width=16.0)
        for x in (long - 1, long + 1):
            p.cells[1][x] = p.cells[rows + 2][x] = 1
            p.along(2, x, x)
            p.along(rows + 2, x, x)
        if style == 4:
            p.anchors.append(r.choice(((1, 2), (long + 1, 2))))
        elif r.random() < 0.5:                                          # the second room is the long one
            p = flipped(p)
            left = p.width - 1 - long
            placed(p, [8 * p.width - c if k % 2 == 0 else c for k, c in enumerate(far_end(r, 8, 16, rows))])
            return p
    placed(p, far_end(r, 8 * left, 16, rows))
    if style == 1 and r.random() < 0.5:                                 # each port at exactly 512 from one corner
        placed(p, (8 + 512, 16, 8 + 512, 16), 0)
        placed(p, (8 + 512, 16 + 8 * rows, 8 + 512, 16 + 8 * rows), 2)
    return p


def two_centres(r):
    """a long approach, near the mouth's centre but perhaps not near the ramp's: broad or not, alone with the two or not, of one inner region or two"""
    long, many = r.choice((63, 64, 64)), r.random() < 0.5
    p = Plan(72, 5)
    p.room(0, 1, 0, 3 if many else 1)
    p.room(1, 1, long + 1, 1)
    p.across(1, 1, 3 if many else 1, width=r.choice((8.0, 12.0, 14.0, 16.0)))
    p.across(long + 1, 1, 1, width=8.0, kind=1, ramp=7)
    if many:
        p.room(1, 3, r.choice((1, 1, 8, 63, 64)), 3)
    if r.random() < 0.3:                                                # a third boundary about the approach
        p.cells[0][4] = 1
        p.along(1, 4, 4, width=r.choice((8.0, 3.0)))
    aside = r.choice((8, 24, 32, 40, 64, 200))
    x = 8 + 512 + r.choice((-4, 0, 1, 8, min(aside, 40)))
    ends = [x, 8, x, r.choice((16, 24, 40))]
    placed(p, ends, 1)
    placed(p, [x - aside, ends[1], x - aside, ends[3]], 0)
    return p


def far_triangle(r):
    """a triangle with a region that reaches far, its mouth's centre nearer than its ramp's or the other way round"""
    n, long = 4, r.choice((61, 62, 63))
    p = Plan(2, n)
    p.room(0, 0, 1, n - 1)
    p.cut((8, 0, 8, 8 * n), width=8.0)
    p.cut((8, 0, 16, 8 * n), width=8.0, kind=r.choice((1, 2)), ramp=7)
    if r.random() < 0.5:
        p.cuts[0][0], p.cuts[1][0] = p.cuts[1][0], p.cuts[0][0]
    p = padded(p, long, 0, 4, 0)
    p.room(0, r.randrange(n), long - 1, r.randrange(n))
    x = 512 + r.choice((-8, 0, 1, 8))
    aside = r.choice((-16, 8, 16, 30))
    placed(p, (x, 0, x, 8 * n), 1)
    placed(p, (x - aside, 0, x - aside, 8 * n), 0)
    if r.random() < 0.3:
        p.anchors.append(r.choice(((long, 0), (long + 1, 0), (long + 1, n - 1))))
    return p


# ---- pass 1: shapes

def shared_outer(r):
    """a star and a mouth of another ramp about one outer region: both go"""
    p = Plan(5, 5)
    p.room(0, 2, 4, 2)
    p.room(2, 0, 2, 1)
    p.along(2, 2, 2, width=16.0)
    p.along(1, 2, 2, width=8.0, kind=1, ramp=8)
    p.cells[3][0] = p.cells[3][2] = p.cells[3][4] = p.cells[4][2] = 1
    if r.random() < 0.5:
        p.cells[3][4] = 0
    p.along(3, 0, 4, width=16.0)
    p.along(4, 2, 2, width=8.0, kind=1, ramp=r.choice((7, 7, 8)))
    return p


def near_triangle(r):
    """mouth and ramp side by side with two pairs each, that name four regions or share no pair"""
    if r.random() < 0.5:                                                # {v, w}, {v, u} and {v, u}, {v, x}
        p = Plan(2, 5)
        p.room(0, 0, 0, 4)
        p.cells[0][1] = p.cells[2][1] = p.cells[4][1] = 1
        p.cut((8, 0, 8, 24))
        p.cut((8, 16, 8, 40), kind=1, ramp=7)
        return p
    p = Plan(5, 4)                                                      # {v, u}, {v, w} and {u, w}, {v, y}
    p.room(0, 0, 4, 0)
    p.room(0, 1, 0, 3)
    p.room(4, 1, 4, 3)
    p.room(1, 2, 1, 3)
    p.cut((8, 16, 8, 32))
    p.cut((9, 24, 40, 24), kind=1, ramp=7)
    placed(p, (8, 16, 8, 32))
    return p


# ---- pass 2: leaves

def leaf_and_third(r):
    """a port whose leaf it also parts from a third region: its pairs come in either order"""
    p = Plan(6, 5)
    p.cells[0][1] = r.choice((0, 1, 1, 1))                              # the third region
    p.room(2, 0, 2, 2)                                                  # the leaf
    p.room(1, 2, 1, 4)                                                  # the exterior
    p.cells[4][2] = 3                                                   # the interior
    p.cells[4][3] = p.cells[4][4] = 1
    p.cut((16, 0, 16, 40), kind=1, ramp=7, upper=1)
    p.across(3, 4, 4)
    p.across(4, 4, 4, kind=2, ramp=7, upper=1)
    if r.random() < 0.2:
        p.cells[1][1] = 1                                               # the third region is the exterior after all
    return p


def touching_leaves(r):
    """two leaves, one on each side of the port, parted by it from one another and from the exterior, which goes round the port's end"""
    p = Plan(7, 9)
    p.room(1, 0, 3, 0)                                                  # the exterior, round the end
    p.room(1, 1, 1, 8)
    p.room(1, 8, 4, 8)
    p.room(3, 0, 3, 2)
    p.room(4, 6, 4, 8)
    p.cells[0][4] = 3                                                   # the interior
    p.cells[0][5] = p.cells[0][6] = 1
    p.room(4, 2, 4, 4)                                                  # the leaves
    p.room(3, 4, 3, 6)
    if r.random() < 0.3:
        p.cells[4][4] = 0                                               # they do not touch
    p.cut((32, 0, 32, 56), kind=1, ramp=7, upper=1)
    p.across(5, 0, 0)
    p.across(6, 0, 0, kind=2, ramp=7, upper=1)
    return p


def edge_elsewhere(r):
    """an interior one of whose edges also parts two regions elsewhere, which come before or behind it"""
    p = Plan(6, 5)
    p.room(0, 2, 4, 2)
    p.cells[2][2] = 3
    p.across(1, 2, 2, kind=1, ramp=7, upper=1)
    p.across(4, 2, 2, kind=2, ramp=7, upper=1)
    p.across(3, 2, 2)
    y = r.choice((0, 4))
    p.cells[y][1] = p.cells[y][2] = 1
    p.cut((16, 0, 16, 24) if y == 0 else (16, 16, 16, 40))
    return p


# ---- pass 3: equal ranks

def ties(r):
    """rooms in a row, their dividers of one width at one place: the labels decide which goes"""
    n = r.choice((3, 3, 4))
    p = Plan(3 * n + 2, 3)
    p.room(1, 1, 3 * n, 1)
    order = list(range(1, n))
    for k in order:
        p.across(3 * k + 1, 1, 1, width=16.0)
    dividers = len(p.cuts)
    for k in range(n):
        for x, y, line in ((3 * k + 1, 0, 1), (3 * k + 3, 0, 1), (3 * k + 2, 2, 2)):
            if r.random() < 0.75:
                p.cells[y][x] = 1
                p.along(line, x, x, width=8.0)
    placed(p, (8, 8, 8, 16), *range(dividers))
    if r.random() < 0.3:
        p.anchors.append((r.randrange(1, 3 * n), 1))
    return p


def ring(r):
    """rooms about a corner, so that labels and neighbourhood go different ways; their dividers as in `ties`"""
    p = Plan(9, 9)
    where = [(1, 1), (5, 1), (1, 5), (5, 5)]
    for x, y in where:
        p.room(x, y, x + 2, y + 2)
    doors = [((4, 2), (4, 1), 'across'), ((4, 6), (4, 5), 'across'), ((2, 4), (1, 4), 'along'), ((6, 4), (5, 4), 'along')]
    chosen = r.sample(doors, r.choice((2, 3, 3)))
    for (x, y), _, way in chosen:
        p.cells[y][x] = 1
        (p.across(x, y, y, width=16.0) if way == 'across' else p.along(y, x, x, width=16.0))
    dividers = len(p.cuts)
    for (x, y) in where:
        for dx, dy in ((0, -1), (2, -1), (-1, 0), (-1, 2), (3, 0), (3, 2), (0, 3), (2, 3)):
            u, v = x + dx, y + dy
            if 0 <= u < 9 and 0 <= v < 9 and u != 4 and v != 4 and r.random() < 0.6:
                p.cells[v][u] = 1
                if dx in (-1, 3):
                    p.across(u if dx == 3 else u + 1, v, v, width=8.0)
                else:
                    p.along(v if dy == 3 else v + 1, u, u, width=8.0)
    placed(p, (8, 8, 8, 16), *range(dividers))
    return p


# ---- numbers at the ends of their ranges

def least_and_greatest(r):
    """ramps of the least and the greatest ids and elevations"""
    p = r.choice((generate.single, generate.rivals, generate.star, generate.interior))(r)
    ids = {}
    for c in p.cuts:
        if c[3]:
            if c[4] not in ids:
                ids[c[4]] = r.choice((0, 0, 1, (1 << 31) - 1, 1 << 31, (1 << 32) - 1))
            c[4] = ids[c[4]]
            if r.random() < 0.2:
                c[5] = 7
            if r.random() < 0.2:
                c[6] = 7
    return p


FAMILIES = [(separations, 6), (slanted, 8), (one_corner, 5), (two_centres, 5), (far_triangle, 3), (shared_outer, 1), (near_triangle, 1), (leaf_and_third, 2),
            (touching_leaves, 2), (edge_elsewhere, 1), (ties, 2), (ring, 3), (least_and_greatest, 2)]


def turned(r, p):
    """one of the eight ways round, its cuts in any order and either way round"""
    if r.random() < 0.5:
        p = flipped(p)
    if r.random() < 0.5:
        p = transposed(flipped(transposed(p)))
    if r.random() < 0.5:
        p = transposed(p)
    r.shuffle(p.cuts)
    for c in p.cuts:
        for k in (0, 1):
            if r.random() < 0.3:
                c[k] = c[k][2:] + c[k][:2]
    return p


def edge_maps(count, seed=1, families=None):
    """(number, family, map): the same for the same seed, and each map by itself the same however many are drawn"""
    families = families or [f for f, weight in FAMILIES for _ in range(weight)]
    for k in range(count):
        r = random.Random(f'edges {seed}/{k}')
        family = r.choice(families)
        m = turned(r, family(r)).finished()
        m.pass_number = r.choice((1, 2, 3))
        yield k, family.__name__, m


# ---- one map for each corner that a test on 512 pixels could leave out

class Without:
    """a region's record that has lost a corner"""
    def __init__(self, stats, corner):
        self.cells = stats.cells
        self.corners = lambda: [c for k, c in enumerate(stats.corners()) if k != corner]


def rows_without(m, test, corner):
    """the rows of a map where `test`, one of CORNER_TESTS, leaves out a corner of every region"""
    method, kept = reference.RegionStats.corners, {name: getattr(reference, name) for name in ('within_radius', 'within_span_radius')}
    try:
        if test in kept:
            setattr(reference, test, lambda stats, *rest: kept[test](Without(stats, corner), *rest))
        else:
            reference.RegionStats.corners = lambda self: [c for k, c in enumerate(method(self)) if k != corner]
        return reference.results(m, Counter())['rows']
    finally:
        reference.RegionStats.corners = method
        for name, function in kept.items():
            setattr(reference, name, function)


# the tests on 512 pixels, and the pass that each belongs to
CORNER_TESTS = (('approach', 1), ('interior', 2), ('within_radius', 3), ('within_span_radius', 3))


def corner_maps(seed=1, most=20000):
    """(name, map): for each test on 512 pixels and each corner of a region's box the first map whose rows change where the test leaves it out"""
    open_ = {(test, number, corner) for test, number in CORNER_TESTS for corner in range(4)}
    for k, _, m in edge_maps(most, seed, [one_corner]):
        for test, number, corner in sorted(open_):
            m.pass_number = number
            if rows_without(m, test, corner) != reference.results(m, Counter())['rows']:
                open_.remove((test, number, corner))
                yield f'{test}-corner-{corner}-{k}', reference.Map(number, m.width, m.height, list(m.cells), list(m.spans), list(m.boundaries), list(m.anchors))
                break
        if not open_:
            return
    raise AssertionError(f'no map for {sorted(open_)}')


def main():
    count, seed = generate.count_and_seed(__doc__, 2000)
    notes = {}
    for _, family, m in edge_maps(count, seed):
        for m.pass_number in (1, 2, 3):
            assert reference.early_refusal(m, reference.lend(m), True) is None
            reference.results(m, notes.setdefault(family, Counter()))
    for family in sorted(notes):
        print(family)
        for name, n in sorted(notes[family].items()):
            print(f'{n:9} {name}')


if __name__ == '__main__':
    main()
