"""A map in the making, and what may be done to any such plan: turning, padding, disturbing."""
import math

import package  # noqa: F401
from jenwyllt.unproved.hypotenuse import bits
from jenwyllt.unproved.reference import Map


def ulp_up(x):
    return math.nextafter(x, math.inf)


def ulp_down(x):
    return math.nextafter(x, 0.0)


class Plan:
    """a map in the making: cells by position, and cuts, each a span with its boundary"""

    def __init__(self, width, height, fill=0):
        self.width, self.height = width, height
        self.cells = [[fill] * width for _ in range(height)]
        self.cuts = []                      # [span (4), boundary endpoints (4), width, kind, id, lower, upper]
        self.anchors = []

    def room(self, x0, y0, x1, y1, cell=1):
        """walkable cells, x1 and y1 included"""
        for y in range(y0, y1 + 1):
            for x in range(x0, x1 + 1):
                self.cells[y][x] = cell

    def cut(self, ends, width=8.0, kind=0, ramp=0, lower=0, upper=0):
        """ends in pixels"""
        if kind == 0:
            ramp = lower = upper = 0
        self.cuts.append([list(ends), list(ends), width, kind, ramp, lower, upper])
        return len(self.cuts) - 1

    def across(self, x, y0, y1, **more):
        """along the border before column x, beside the rows y0 to y1"""
        return self.cut((8 * x, 8 * y0, 8 * x, 8 * (y1 + 1)), **more)

    def along(self, y, x0, x1, **more):
        """along the border above row y"""
        return self.cut((8 * x0, 8 * y, 8 * (x1 + 1), 8 * y), **more)

    def walkable(self):
        return [(x, y) for y in range(self.height) for x in range(self.width) if self.cells[y][x] & 1]

    def finished(self):
        assert all(n >= 0 for c in self.cuts for n in c[0] + c[1])
        spans = [n for c in self.cuts for n in c[0]]
        boundaries = [n for c in self.cuts for n in (*c[1], bits(c[2]), *c[3:])]
        return Map(1, self.width, self.height, [c for row in self.cells for c in row], spans, boundaries,
                   [n for a in self.anchors for n in a])


def beside(*plans):
    """plans next to one another, with a blocked column between"""
    whole = Plan(sum(p.width for p in plans) + len(plans) - 1, max(p.height for p in plans))
    at = 0
    for p in plans:
        for y, row in enumerate(p.cells):
            whole.cells[y][at:at + p.width] = row
        for span, ends, *rest in p.cuts:
            shift = [8 * at, 0, 8 * at, 0]
            whole.cuts.append([[a + b for a, b in zip(span, shift)], [a + b for a, b in zip(ends, shift)], *rest])
        whole.anchors += [(x + at, y) for x, y in p.anchors]
        at += p.width + 1
    return whole


# ---- turning, padding, disturbing

def transposed(p):
    q = Plan(p.height, p.width)
    q.cells = [[p.cells[y][x] for y in range(p.height)] for x in range(p.width)]
    q.cuts = [[[s[1], s[0], s[3], s[2]], [e[1], e[0], e[3], e[2]], *rest] for s, e, *rest in p.cuts]
    q.anchors = [(y, x) for x, y in p.anchors]
    return q


def flipped(p):
    q = Plan(p.width, p.height)
    far = 8 * p.width
    q.cells = [row[::-1] for row in p.cells]
    q.cuts = [[[far - s[0], s[1], far - s[2], s[3]], [far - e[0], e[1], far - e[2], e[3]], *rest] for s, e, *rest in p.cuts]
    q.anchors = [(p.width - 1 - x, y) for x, y in p.anchors]
    return q


def padded(p, left, top, right, bottom):
    q = Plan(p.width + left + right, p.height + top + bottom)
    for y, row in enumerate(p.cells):
        q.cells[y + top][left:left + p.width] = row
    shift = (8 * left, 8 * top, 8 * left, 8 * top)
    q.cuts = [[[a + b for a, b in zip(s, shift)], [a + b for a, b in zip(e, shift)], *rest] for s, e, *rest in p.cuts]
    q.anchors = [(x + left, y + top) for x, y in p.anchors]
    return q


def in_map(p, ends):
    return [min(max(v, 0), 8 * (p.width, p.height)[k % 2]) for k, v in enumerate(ends)]


def spice(r, p, calm=False):
    """turns the plan and, unless calm, disturbs it a little"""
    if r.random() < 0.4:
        p = flipped(p)
    if r.random() < 0.4:
        p = transposed(p)
    if r.random() < 0.4:
        p = flipped(p)
    if r.random() < 0.3:
        p = padded(p, *(r.choice((0, 0, 1, 2)) for _ in range(4)))
    r.shuffle(p.cuts)
    for c in p.cuts:
        if r.random() < 0.3:
            c[0] = c[0][2:] + c[0][:2]
        if r.random() < 0.3:
            c[1] = c[1][2:] + c[1][:2]
    if r.random() < 0.15 and p.anchors:
        p.anchors += r.choices(p.anchors, k=r.randint(1, 3))           # repeated
    if r.random() < 0.15:
        p.anchors += [(r.randrange(p.width), r.randrange(p.height)) for _ in range(r.randint(1, 2))]   # blocked or not
    if r.random() < 0.3:                                                # bits of blocked cells do not count
        for row in p.cells:
            for x, c in enumerate(row):
                if not c & 1 and r.random() < 0.3:
                    row[x] = 2 * r.randrange(128)
    if calm:
        return p
    if r.random() < 0.08 and p.cuts:                                    # a boundary elsewhere, or of no length
        c = r.choice(p.cuts)
        if r.random() < 0.4:
            c[1] = c[1][:2] * 2
        else:
            c[1] = in_map(p, [v + r.choice((-9, -1, 0, 1, 8)) for v in c[1]])
    if r.random() < 0.06 and p.cuts:
        r.choice(p.cuts)[2] = r.choice((0.0, 5e-324, 1.0, 8.0, 12.0, 16.0, 65536.0))
    if r.random() < 0.06:
        for _ in range(r.randint(1, 3)):
            x, y = r.randrange(p.width), r.randrange(p.height)
            p.cells[y][x] = (p.cells[y][x] ^ r.choice((1, 2, 4, 8))) & 15
    if r.random() < 0.04 and p.cuts:                                    # one more cut of the same kind
        c = r.choice(p.cuts)
        p.cuts.insert(r.randrange(len(p.cuts) + 1), [list(c[0]), list(c[1]), *c[2:]])
    if r.random() < 0.05 and p.cuts:                                    # a span in passing
        a = [8 * r.randint(0, p.width), 8 * r.randint(0, p.height)]
        b = [r.randint(0, 8 * p.width), r.randint(0, 8 * p.height)]
        if a != b:
            p.cut(a + b)
    return p


def uneven(r, m):
    """spans and boundaries of unequal counts"""
    if r.random() < 0.5 and m.boundaries:
        k = r.randrange(len(m.boundaries) // 9)
        m.boundaries = m.boundaries[:9 * k] + m.boundaries[9 * (k + 1):]
    elif r.random() < 0.5 and m.spans:
        k = r.randrange(len(m.spans) // 4)
        m.spans = m.spans[:4 * k] + m.spans[4 * (k + 1):]
    elif m.boundaries:
        m.boundaries = m.boundaries + m.boundaries[:9]
    else:
        m.spans = [0, 0, 8, 8]
    return m
