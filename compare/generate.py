"""A seeded generator of maps that exercise the rules.

    python3 generate.py [count] [seed]      reports how often each kind of proposal was made, refused and taken

Each family below draws maps with one structure in mind; `spice` then turns, pads and disturbs them. The maps are given
for all three passes: what is a mouth to the first pass is an ordinary boundary to the third.
"""
import argparse
import random
from collections import Counter

import package  # noqa: F401
import damage
from plan import Plan, beside, padded, spice, ulp_down, ulp_up, uneven
from jenwyllt.unproved import reference
from jenwyllt.unproved.sheet_bytes import keptlist

# ---- families

WIDTHS = (8.0, 16.0, 24.0, 7.5, 12.0, 11.0)


def widths_about(r, w):
    """widths that meet or just miss twice and one and a half times w"""
    return r.choice((w, w, 2 * w, 2 * w, ulp_down(2 * w), ulp_up(2 * w), 1.5 * w, ulp_up(1.5 * w), ulp_down(1.5 * w), 3 * w, w / 2,
                     ulp_down(w), w / 1.5))


def fuzz(r):
    """no plan: any cells, spans on borders or anywhere"""
    w, h = r.randint(1, 9), r.randint(1, 9)
    p = Plan(w, h)
    dense = r.choice((0.6, 0.85, 1.0))
    for y in range(h):
        for x in range(w):
            p.cells[y][x] = (r.random() < dense) + 2 * (r.random() < 0.1) + 4 * r.choice((0, 0, 0, 1, 2, 3))
    for _ in range(r.choice((0, 1, 2, 3, 5, 8))):
        a = [r.randint(0, 8 * w), r.randint(0, 8 * h)]
        b = [r.randint(0, 8 * w), r.randint(0, 8 * h)]
        style = r.random()
        if style < 0.6:                                                # on the borders, straight
            a, b = [v // 8 * 8 for v in a], [v // 8 * 8 for v in b]
            k = r.randrange(2)
            b[k] = a[k]
        elif style < 0.8:                                              # through centres and corners
            a, b = [v // 4 * 4 for v in a], [v // 4 * 4 for v in b]
        if a == b:
            continue
        kind = r.choice((0, 0, 1, 2))
        p.cut(a + b, r.choice(WIDTHS), kind, r.choice((1, 7)), r.randrange(4), r.randrange(8))
    p.anchors = [(r.randrange(w), r.randrange(h)) for _ in range(r.choice((0, 0, 1, 2)))]
    return p


def slants(r):
    """an open field with long spans at any angle: the strip of cells about a span is narrower than the map"""
    w, h = r.randint(8, 24), r.randint(8, 24)
    p = Plan(w, h)
    for y in range(h):
        for x in range(w):
            p.cells[y][x] = int(r.random() < 0.93)
    step = r.choice((1, 4, 8))
    for _ in range(r.randint(2, 9)):
        side = r.randrange(2)
        a = [r.randint(0, 8 * w), r.choice((0, r.randint(0, 8 * h)))]
        b = [r.randint(0, 8 * w), r.choice((8 * h, r.randint(0, 8 * h)))]
        if side:
            a, b = [r.choice((0, 4)), r.randint(0, 8 * h)], [r.choice((8 * w, 8 * w - 4)), r.randint(0, 8 * h)]
        a, b = [v // step * step for v in a], [v // step * step for v in b]
        if a != b:
            p.cut(a + b, r.choice(WIDTHS), r.choice((0, 0, 0, 1, 2)), r.choice((1, 2)), 0, 1)
    ground = p.walkable()
    p.anchors = [r.choice(ground) for _ in range(r.choice((0, 1, 2)))]
    return p


def rooms(r, counts=((2, 2), (3, 2), (3, 3), (4, 2), (4, 3)), sizes=(1, 2, 3)):
    """rooms in rows and columns, between them a wall, a gap, a door or two, a ramp"""
    nx, ny = r.choice(counts)
    size = r.choice(sizes)
    wall = r.choice((0, 1))
    pitch = size + wall
    p = Plan(nx * pitch - wall, ny * pitch - wall, 0)
    flat = r.random() < 0.7
    ramps = r.random() < 0.5
    level = r.randrange(4)
    for j in range(ny):
        for i in range(nx):
            e = level if flat else r.randrange(3)
            p.room(i * pitch, j * pitch, i * pitch + size - 1, j * pitch + size - 1, 1 + 4 * e + 2 * (r.random() < 0.08))
            if wall == 0 and size > 1 and i and j and r.random() < 0.8:
                p.cells[j * pitch][i * pitch] = 0                       # blocks the steps round the corner
    base = r.choice(WIDTHS)

    def door(ends_of, x, y, dx, dy, gap):
        style = r.random()
        if style < 0.15:
            if wall == 0:
                ends_of(0, size - 1, 0)
            return
        if wall:
            if gap:
                p.cells[y][x] = 1 + 4 * level
            second = gap and size >= 3 and r.random() < 0.35
        else:
            second = False
        if style < 0.3:
            return
        ends_of(0, 0 if wall else size - 1, style)
        if second:
            p.cells[y + 2 * dy][x + 2 * dx] = 1 + 4 * level
            ends_of(2, 2, r.random())

    def put(maker, at, first, last, style):
        kind = r.choice((1, 2)) if ramps and style > 0.75 else 0
        maker(at, first, last, width=widths_about(r, base), kind=kind, ramp=r.choice((1, 2, 3)), lower=r.choice((0, level)), upper=level)

    for j in range(ny):
        for i in range(nx):
            x, y = i * pitch, j * pitch
            if i + 1 < nx:
                door(lambda a, b, s, x=x, y=y: put(p.across, x + size + (wall and r.randrange(2)), y + a, y + b, s), x + size, y, 0, 1, wall)
            if j + 1 < ny:
                door(lambda a, b, s, x=x, y=y: put(p.along, y + size + (wall and r.randrange(2)), x + a, x + b, s), x, y + size, 1, 0, wall)
    ground = p.walkable()
    p.anchors = [r.choice(ground) for _ in range(r.choice((0, 1, 1, 2, 3)))]
    return p


def single(r):
    """a corridor: outer, mouth, approach, ramp and what lies beyond; perhaps a side branch or the ramp's other end"""
    high = r.choice((1, 1, 2, 3))
    a, b, c = r.randint(1, 3), r.choice((1, 1, 2, 3, 4, 5)), r.randint(1, 3)
    p = Plan(a + b + c + (2 if r.random() < 0.3 else 0), high + (1 if r.random() < 0.2 else 0))
    p.room(0, 0, a + b + c - 1, high - 1)
    base = r.choice(WIDTHS)
    wide = widths_about(r, base)
    kind = r.choice((1, 2))
    p.across(a, 0, high - 1, width=wide)
    p.across(a + b, 0, high - 1, width=base, kind=kind, ramp=7, lower=0, upper=1)
    if p.width > a + b + c:                                             # one more mouth or the other end beyond
        p.room(a + b + c, 0, a + b + c + 1, high - 1)
        style = r.random()
        p.across(a + b + c, 0, high - 1, width=widths_about(r, base),
                 kind=0 if style < 0.5 else 3 - kind if style < 0.8 else kind, ramp=r.choice((7, 7, 8)))
    if p.height > high:                                                 # a side branch of the approach
        x = r.randint(0, a + b + c - 1)
        p.room(x, high, x, high)
        if r.random() < 0.7:
            p.along(high, x, x, width=widths_about(r, base), kind=r.choice((0, 0, kind, 3 - kind)), ramp=r.choice((7, 8)))
    if r.random() < 0.4:
        p.anchors.append((r.randrange(a), 0))
    if r.random() < 0.15:
        p.anchors.append((r.randrange(p.width), 0))
    return p


def rivals(r):
    """two or three ramps about one region, with mouths that compete for it"""
    n = r.choice((2, 2, 3))
    p = Plan(2 * n - 1, 3 + r.choice((0, 1)))
    p.room(0, 0, p.width - 1, 0)                                        # the region between them
    base = r.choice(WIDTHS)
    for k in range(n):
        x = 2 * k
        p.room(x, 1, x, p.height - 1)
        style = r.random()
        kind, ramp = r.choice((1, 2)), r.choice((7, 7, 8, 9))
        if style < 0.7:
            p.along(1, x, x, width=widths_about(r, base))
            p.along(2, x, x, width=base, kind=kind, ramp=ramp)
        elif style < 0.85:
            p.along(1, x, x, width=base, kind=kind, ramp=ramp)
        else:
            p.along(1, x, x, width=widths_about(r, base))
        if p.height > 3 and r.random() < 0.5:
            p.along(3, x, x, width=widths_about(r, base), kind=r.choice((0, 0, 1, 2)), ramp=r.choice((7, 8, 9)))
    if n > 2 and r.random() < 0.5:
        p.across(2, 0, 0, width=widths_about(r, base))
    if r.random() < 0.5:
        p.anchors.append((r.randrange(p.width), 0))
    return p


def star(r):
    """a mouth between one outer region and several inner ones, one of them the way to the ramp"""
    n = r.choice((2, 2, 3, 4))
    depth = r.choice((1, 1, 2))
    p = Plan(2 * n - 1, 2 + depth)
    p.room(0, 0, p.width - 1, 0)
    way = r.randrange(n)
    for k in range(n):
        p.room(2 * k, 1, 2 * k, depth if k != way else depth + 1)
    base = r.choice(WIDTHS)
    p.along(1, 0, p.width - 1, width=r.choice((2 * base, base, widths_about(r, base))))
    p.along(depth + 1, 2 * way, 2 * way, width=base, kind=r.choice((1, 2)), ramp=7)
    style = r.random()
    if style < 0.15:
        p.anchors.append((r.randrange(p.width), 0))
    elif style < 0.3:
        p.anchors.append((2 * r.randrange(n), 1))
    elif style < 0.4 and depth == 2:
        p.along(2, 2 * ((way + 1) % n), 2 * ((way + 1) % n), width=base)
    elif style < 0.5:                                                   # joins two inner regions: bypassed
        p.cells[1][1] = 1
    if r.random() < 0.15:
        p.cut((8 * (2 * way), 8 * (depth + 1), 8 * (2 * way) + 8, 8 * (depth + 1)), width=base, kind=r.choice((0, 1, 2)), ramp=7)
    return p


def triangle(r):
    """a mouth and a ramp close together, each with two pairs of the same three regions; perhaps mouths of other ramps about one of the three"""
    n = r.choice((4, 4, 5, 6, 8))
    p = Plan(2 + r.choice((0, 0, 1, 2)), n)
    p.room(0, 0, 1, n - 1)
    base = r.choice(WIDTHS)
    straight, slanted = (8, 0, 8, 8 * n), (r.choice((8, 8, 9)), 0, 16, 8 * n)
    ends = [straight, slanted]
    if r.random() < 0.5:
        ends.reverse()
    p.cut(ends[0], width=widths_about(r, base))
    p.cut(ends[1], width=base, kind=r.choice((1, 2)), ramp=7)
    style = r.random()
    ground = [(0, 0), (1, 0), (1, n - 1)]
    rival = r.random() < 0.5
    if style < 0.4:
        p.anchors.append((0, 0) if rival and r.random() < 0.8 else r.choice(ground))
    elif style < 0.5:
        p.anchors += r.sample(ground, 2)
    if p.width > 2 and r.random() < 0.6:
        y = r.choice((0, n - 1))
        p.room(2, y, p.width - 1, y)
        p.across(2, y, y, width=base * r.choice((1, 2)), kind=r.choice((0, 0, 1, 2)), ramp=8)
        if p.width > 3:
            p.across(3, y, y, width=base, kind=r.choice((0, 1, 2, 1)), ramp=8)
    if rival:
        p = padded(p, 2, 0, 0, 0)
        y = r.randrange(n)
        p.room(0, y, 1, y)
        mouth = p.across(2, y, y, width=base * r.choice((1, 2, 2)), kind=r.choice((0, 0, 0, 0, 1)), ramp=9)
        ramp = p.across(1, y, y, width=base, kind=r.choice((0, 1, 2, 1)), ramp=9)
        if r.random() < 0.5:
            p.cuts[mouth][1] = list(p.cuts[ramp][1])                    # of no separation, and the first by its endpoints
    return p


def overlay(r):
    """mouth and ramp side by side at some distance, alike in width"""
    gap = r.choice((4, 5, 6, 7, 8, 8, 9))
    high = r.choice((1, 2, 2, 3, 4))
    p = Plan(gap + 2, high + 2)
    p.room(0, 0, 0, high - 1)
    p.room(1, 0, gap, high - 1)
    p.room(gap + 1, 0, gap + 1, high - 1)
    base = r.choice(WIDTHS)
    m = p.across(1, 0, high - 1, width=r.choice((base, 1.5 * base, ulp_up(1.5 * base), base / 1.5)))
    e = p.across(gap + 1, 0, high - 1, width=base, kind=r.choice((1, 2)), ramp=7)
    style = r.random()
    if style < 0.4:                                                     # boundaries unlike their spans: overlap of about 3/4, normal of about 64
        long = r.choice((12, 16, 20, 24))
        slide = r.choice((long // 4, long // 4, long // 4 + 1, long // 4 - 1, long // 2))
        x = min(r.choice((64, 64, 63, 65, 40)), 8 * p.width)
        if long + slide <= 8 * p.height:
            p.cuts[m][1] = [0, 0, 0, long]
            p.cuts[e][1] = [x, slide, x, long + slide]
    elif style < 0.5:                                                   # nearly askew
        p.cuts[m][1] = [0, 0, r.choice((0, 4, 8, 9)), 8 * p.height]
    if r.random() < 0.15:
        p.anchors.append((r.choice((0, 1, gap + 1)), 0))
    if r.random() < 0.15:
        p.along(high, 2, 2)
        p.room(2, high, 2, high)
    return p


def interior(r):
    """a tree of cells between the two ends of a ramp, cut by ordinary boundaries; leaves beside the ends"""
    n = r.choice((2, 2, 3, 3, 4, 5, 8, 9, 10))
    high = r.choice((1, 1, 2))
    p = Plan(n + 2, high + 3)
    p.room(0, 0, n + 1, high - 1)
    lower, upper = r.choice(((0, 1), (0, 1), (1, 2), (2, 2), (0, 5)))
    for x in range(n + 2):
        for y in range(high):
            p.cells[y][x] = 1 + 4 * r.choice((lower, upper) if upper < 4 else (lower,)) + 2 * (r.random() < 0.5)
    kinds = r.choice(((1, 2), (2, 1), (1, 2), (2, 1), (1, 1)))
    ids = (7, 7) if r.random() < 0.9 else (7, 8)
    base = r.choice(WIDTHS)
    first = p.across(1, 0, high - 1, width=base, kind=kinds[0], ramp=ids[0], lower=lower, upper=upper)
    second = p.across(n + 1, 0, high - 1, width=base, kind=kinds[1], ramp=ids[1], lower=lower, upper=upper)
    for x in range(2, n + 1):
        if r.random() < 0.92 or n == 2:
            p.across(x, 0, high - 1, width=widths_about(r, base))
    style = r.random()
    top = high + 1
    if style < 0.45:                                                    # a leaf: beside the end, on the interior's side of it, joined to the exterior only
        for cut, x, out in ((first, 1, 0), (second, n, n + 1)):
            if r.random() < 0.7:
                p.cells[top][x] = 1 + 4 * lower
                p.cells[top][out] = 1
                p.cells[high][out] = 1
                ends = [8 * max(x, out), 0, 8 * max(x, out), 8 * (top + 1)]
                p.cuts[cut][0], p.cuts[cut][1] = list(ends), list(ends)
                fault = r.random()
                if fault < 0.1:
                    p.cells[high][x] = 1                                # joined to the interior after all
                elif fault < 0.2:
                    p.anchors.append((x, top))
                elif fault < 0.3:
                    p.cells[high][out] = 0                              # joined to nothing
                elif fault < 0.4:
                    p.cells[top + 1][x] = p.cells[top + 1][out] = 1     # a way round the end's foot: the port is no full cut
                elif fault < 0.5:
                    p.cells[top + 1][x] = 1                             # the leaf has a cut of its own
                    p.along(top + 1, x, x, width=base)
    elif style < 0.52 and n > 2:                                        # an ordinary cut that also parts two cells elsewhere, or none
        x = r.randint(2, n)
        p.cells[top][x - 1] = p.cells[top][x] = 1
        if r.random() < 0.4:
            p.cells[top + 1][x - 1] = p.cells[top + 1][x] = 1
        ends = [8 * x, 0, 8 * x, 8 * (top + 1)]
        for c in p.cuts:
            if c[0][0] == 8 * x:
                c[0], c[1] = list(ends), list(ends)
    elif style < 0.65:                                                  # a branch, cut or not
        x = r.randint(1, n)
        p.cells[high][x] = 1 + 4 * lower
        if r.random() < 0.8:
            p.along(high, x, x, width=base, kind=r.choice((0, 0, 0, 1)), ramp=7)
    if r.random() < 0.1:
        p.anchors.append((r.randint(0, n + 1), 0))
    if r.random() < 0.1:
        p.cells[0][r.randint(0, n + 1)] = 1 + 4 * r.randrange(4)
    return p


def two_interiors(r):
    return beside(interior(r), interior(r))


def union(r):
    """two rooms with a divider and ports to cells about them"""
    a, b, high = r.choice((1, 2, 3)), r.choice((1, 2, 3)), r.choice((1, 1, 2, 3))
    p = Plan(a + b + 2, high + 2)
    e = r.randrange(4)
    ground = 1 + 4 * e
    p.room(1, 1, a + b, high, ground)
    base = r.choice(WIDTHS)
    p.across(a + 1, 1, high, width=base)
    spots = [('along', 1, x, 0) for x in range(1, a + b + 1)] + [('along', high + 1, x, high + 1) for x in range(1, a + b + 1)]
    spots += [('across', 1, y, 0) for y in range(1, high + 1)] + [('across', a + b + 1, y, a + b + 1) for y in range(1, high + 1)]
    r.shuffle(spots)
    wanted = r.choice((2, 3, 3, 3, 4, 5))
    for way, line, k, cell in spots:
        if wanted == 0:
            break
        x, y = (k, cell) if way == 'along' else (cell, k)
        near = [(x + i, y + j) for i in (-1, 0, 1) for j in (-1, 0, 1)]
        if any(0 <= u < p.width and 0 <= v < p.height and p.cells[v][u] & 1 and not (1 <= u <= a + b and 1 <= v <= high) for u, v in near):
            if r.random() < 0.8:
                continue                                               # would touch another exterior
        p.cells[y][x] = r.choice((ground, ground, 1 + 4 * r.randrange(4)))
        wide = r.choice((base, base, widths_about(r, base)))
        kind = r.choice((0, 0, 0, 0, 1, 2))
        (p.along if way == 'along' else p.across)(line, k, k, width=wide, kind=kind, ramp=r.choice((1, 2)))
        wanted -= 1
    style = r.random()
    if style < 0.35:
        p.anchors.append((1 if r.random() < 0.5 else a + b, 1))
    elif style < 0.42:
        p.anchors += [(1, 1), (a + b, 1)]
    if r.random() < 0.15:
        p.cells[r.randint(1, high)][r.randint(1, a + b)] = 1 + 4 * r.randrange(4) + 2 * r.randrange(2)
    return p


def near_flat(r):
    """a union with one anchored side and a room of about a hundred cells, one or two of another elevation"""
    long, high, less = r.choice(((50, 2, 0), (25, 4, 0), (20, 5, 0), (20, 5, 1), (20, 5, 2), (33, 3, 0), (25, 4, 1), (40, 5, 0), (40, 5, 1), (50, 4, 2)))
    e = r.randrange(4)
    p = Plan(long + 3, high + 2)
    p.room(1, 1, long, high, 1 + 4 * e)
    odd = (e + r.choice((1, 2, 3))) % 4
    for x in r.sample(range(2, long - 8), r.choice((1, 1, 2))):
        p.cells[r.randint(1, high)][x] = 1 + 4 * odd
    for x in r.sample(range(2, long - 8), less):
        p.cells[1][x] = 0
    p.room(long + 1, 1, long + 2, high, 1 + 4 * e)
    base = r.choice(WIDTHS)
    p.across(long + 1, 1, high, width=base)
    for x in r.choice(((long - 2, long, long + 2), (long - 4, long - 2, long + 1), (long, long + 2, long - 6))):
        p.cells[0][x] = 1
        p.along(1, x, x, width=r.choice((base, base, base, ulp_up(base), base / 2)))
    if r.random() < 0.5:
        p.cells[high + 1][long + 1] = 1
        p.along(high + 1, long + 1, long + 1, width=base)
    if r.random() < 0.9:
        p.anchors.append(r.choice(((1, high), (long + 1, 1), (long, 1))))
    return p


def bridge(r):
    """a pocket with two doors to one region and a third to an anchored one"""
    size = r.choice((3, 3, 4, 5))
    high = r.choice((1, 1, 2))
    p = Plan(size + r.choice((0, 1)), high + 4)
    e = r.randrange(4)
    p.room(0, 2, size - 1, 1 + high, 1 + 4 * e)
    p.room(0, 0, size - 1, 0)
    p.cells[1][0] = 1
    p.cells[1][size - 1] = 1
    base = r.choice(WIDTHS)
    p.along(2, 0, 0, width=base)
    p.along(r.choice((1, 2)) if r.random() < 0.3 else 2, size - 1, size - 1, width=widths_about(r, base))
    x = r.randrange(size)
    p.cells[2 + high][x] = 1 + 4 * e
    p.along(2 + high, x, x, width=r.choice((base, widths_about(r, base))), kind=r.choice((0, 0, 0, 0, 0, 1)), ramp=3)
    if r.random() < 0.85:
        p.anchors.append((x, 2 + high))
    if r.random() < 0.2:
        p.anchors.append(r.choice(((0, 0), (0, 2))))
    if r.random() < 0.1:
        p.cells[2][r.randrange(size)] = 1 + 4 * r.randrange(4) + 2 * r.randrange(2)
    if r.random() < 0.4:                                                # beyond the anchored cell a second pocket or a junction
        for y in range(3 + high, p.height):
            p.room(0, y, size - 1, y)
        p.along(3 + high, x, x, width=widths_about(r, base))
    return p


def linked_bridges(r):
    """pockets side by side below one region, each with its two doors to it, and anchored cells below: proposals that share ports or regions"""
    n = r.choice((2, 2, 3))
    p = Plan(4 * n - 1, 4)
    p.room(0, 0, p.width - 1, 0)
    base = r.choice(WIDTHS)
    for k in range(n):
        x = 4 * k
        p.room(x, 2, x + 2, 2)
        p.cells[1][x] = p.cells[1][x + 2] = 1
        p.along(2, x, x, width=base * r.choice((1, 2)))
        p.along(2, x + 2, x + 2, width=base * r.choice((1, 2)))
        if k and r.random() < 0.4:
            p.cells[2][x - 1] = 1                                       # a door between two pockets
            p.across(x, 2, 2, width=base * r.choice((1, 2)))
        else:
            p.cells[3][x + 1] = 1
            p.along(3, x + 1, x + 1, width=base * r.choice((1, 2)))
            if r.random() < 0.8:
                p.anchors.append((x + 1, 3))
    if r.random() < 0.3:
        p.anchors.append((0, 0))
    return p


def mutual_bridges(r):
    """two pockets with two doors between them and one more each: both propose the wider of the two doors"""
    p = Plan(5, 5)
    p.room(0, 1, 2, 1)
    p.room(0, 3, 2, 3)
    p.cells[2][0] = p.cells[2][2] = 1
    base = r.choice(WIDTHS)
    p.along(r.choice((2, 3)), 0, 0, width=base * r.choice((1, 2)))
    p.along(r.choice((2, 3)), 2, 2, width=base * r.choice((1, 2)))
    for y in (1, 3):
        if r.random() < 0.5:
            p.room(3, y, 4, y)
            p.across(3, y, y, width=widths_about(r, base))
            p.anchors += [(4, y)] * (r.random() < 0.85)
        else:
            out = 0 if y == 1 else 4
            p.cells[out][1] = 1
            p.along(max(out, y), 1, 1, width=widths_about(r, base))
            p.anchors += [(1, out)] * (r.random() < 0.85)
    return p


def bridge_and_union(r):
    """a bridge whose anchored third region is one side of a union with the pocket, or whose exterior is one side of another"""
    p = Plan(7, 6)
    p.room(0, 2, 2, 2)                                                  # the pocket
    p.room(0, 0, 2, 0)                                                  # its exterior
    p.cells[1][0] = p.cells[1][2] = 1
    base = r.choice(WIDTHS)
    p.along(2, 0, 0, width=base * r.choice((1, 2, 4)))
    p.along(2, 2, 2, width=base * r.choice((1, 2, 4)))
    p.room(3, 2, 5, 2)                                                  # the third, beside the pocket
    p.across(3, 2, 2, width=base * r.choice((1, 2, 4, 4)))
    for x, y, line in ((3, 3, 3), (5, 3, 3), (5, 1, 2)):
        if r.random() < 0.8:
            p.cells[y][x] = 1
            p.along(line, x, x, width=base * r.choice((1, 1, 2)))
    if r.random() < 0.5:                                                # more about the exterior
        p.cells[0][3] = 1
        p.across(3, 0, 0, width=base * r.choice((1, 2, 4)))
        if r.random() < 0.7:
            p.room(4, 0, 6, 0)
            p.across(5, 0, 0, width=base * r.choice((1, 2)))
    if r.random() < 0.8:
        p.anchors.append((4, 2))
    return p


def far_mouth(r):
    """a mouth whose boundary lies about 224 pixels from the ramp's"""
    close = r.random() < 0.4
    p = Plan(36, 36) if close else Plan(r.choice((30, 36)), r.choice((2, 2, 3, 29)))
    p.room(0, 0, 3, 0)
    m = p.across(1, 0, 0, width=16.0)
    e = p.across(2, 0, 0, width=8.0, kind=r.choice((1, 2)), ramp=7)
    if close:
        s, t = r.choice(CLOSE_CALLS)
        p.cuts[m][1], p.cuts[e][1] = (list(s), list(t)) if r.random() < 0.5 else (list(t), list(s))
        for c in (m, e):
            if r.random() < 0.4:
                p.cuts[c][1] = p.cuts[c][1][2:] + p.cuts[c][1][:2]
        return p
    far_x, far_y = 8 * p.width, 8 * p.height
    dx, dy = r.choice(((224, 0), (224, 0), (225, 0), (223, 0), (224, 1), (223, 16), (223, 21), (223, 22), (0, 224), (0, 225), (1, 224)))
    if dy > far_y:
        dx, dy = 224, min(dx, 1)
    p.cuts[m][1] = [0, 0, 0, 0] if dy else [0, 0, 0, 16]
    p.cuts[e][1] = [dx, dy, min(dx + r.choice((0, 8)), far_x), min(dy + r.choice((0, 8)), far_y)]
    return p


# pairs of segments about 224 apart whose rounded separation lies on the other side of 224 than the exact one, or on it
# (found by search; the first point of the first segment is the nearest)
CLOSE_CALLS = [
    ((16, 238, 16, 240), (0, 0, 96, 28)),            # exactly 224, rounded above
    ((101, 252, 101, 260), (85, 14, 181, 42)),
    ((197, 43, 205, 43), (45, 232, 141, 260)),
    ((44, 104, 40, 104), (254, 184, 261, 160)),
    ((71, 47, 71, 47), (127, 264, 223, 236)),
    ((23, 11, 23, 8), (150, 215, 213, 131)),         # exactly 224, rounded below
    ((22, 230, 20, 240), (155, 34, 227, 130)),
    ((241, 182, 250, 190), (0, 130, 90, 10)),
    ((8, 161, 0, 161), (177, 13, 189, 29)),          # exactly 224, rounded to it
    ((30, 8, 30, 0), (158, 192, 166, 186)),
]


def far_regions(r):
    """rooms that reach about 512 pixels, for each of the passes that ask"""
    long = r.choice((62, 63, 64, 64, 65, 66))
    style = r.randrange(5)
    base = 8.0
    if style == 0:                                                      # an approach between mouth and ramp
        p = Plan(long + 4, 1)
        p.room(0, 0, long + 3, 0)
        m = p.across(2, 0, 0, width=16.0)
        e = p.across(long + 2, 0, 0, width=base, kind=1, ramp=7)
        if r.random() < 0.8:
            far = 8 * (long + 2)
            x = r.choice((16 + 512, 16 + 512, 16 + 511, 16 + 513, far))
            p.cuts[m][1] = [min(x, 8 * p.width), 0, min(x, 8 * p.width), 0]
            p.cuts[e][1] = [min(x, 8 * p.width), 8, min(x, 8 * p.width), 8]
    elif style == 1:                                                    # an interior
        p = Plan(long + 4, 1)
        p.room(0, 0, long + 3, 0, 3)
        p.across(1, 0, 0, kind=1, ramp=7)
        p.across(2, 0, 0)
        e = p.across(long + 2, 0, 0, kind=2, ramp=7)
        if r.random() < 0.6:
            x = r.choice((8 * 2 + 512, 8 * 2 + 512, 8 * 2 + 511, 8 * 2 + 513, 8 + 1024))
            p.cuts[0][1] = [min(x, 8 * p.width), 0, min(x, 8 * p.width), 0]
            p.cuts[e][1] = [min(x, 8 * p.width), 8, min(x, 8 * p.width), 8]
    elif style == 4:                                                    # a pocket
        p = Plan(long, 4)
        p.room(0, 2, long - 1, 2)
        p.room(long - 3, 0, long - 1, 0)
        p.cells[1][long - 3] = p.cells[1][long - 1] = 1
        p.along(2, long - 3, long - 3, width=base)
        p.along(2, long - 1, long - 1, width=16.0)
        p.cells[3][long - 2] = 1
        p.along(3, long - 2, long - 2)
        p.anchors.append((long - 2, 3))
        if r.random() < 0.5 and long >= 64:
            p.cuts[1][1] = [511, 20, r.choice((511, 512, 510)), 20]
    else:                                                               # a union, its left room long
        p = Plan(long + 4, 3)
        p.room(1, 1, long, 1)
        p.room(long + 1, 1, long + 2, 1)
        m = p.across(long + 1, 1, 1, width=16.0)
        for x, y, line in ((long + 1, 0, 1), (long + 1, 2, 2), (long - 1, 0, 1), (long - 3, 2, 2)):
            if r.random() < 0.9:
                p.cells[y][x] = 1
                p.along(line, x, x, width=r.choice((8.0, 16.0)))
        if style == 3:
            p.anchors.append(r.choice(((1, 1), (long + 1, 1))))
        choice = r.random()
        x = 8 * r.choice((64, 65, 65))
        if choice < 0.5:
            p.cuts[m][1] = [x, 8, x, 16]
        elif choice < 0.8:
            p.cuts[m][1] = [x, 8, x, r.choice((15, 16))]
        else:
            p.cuts[m][1] = [x, 12, x, 12]
    return p


def far_ports(r):
    """unions and bridges whose ports' boundaries lie about 384 pixels from the middle"""
    p = (union if r.random() < 0.5 else bridge)(r)
    need = 52 - p.width
    p = padded(p, 0, 0, need, 0) if need > 0 else p
    c = r.choice(p.cuts)
    d = r.choice(p.cuts)
    twice = (d[1][0] + d[1][2], d[1][1] + d[1][3])                      # twice the middle
    dx, dy = r.choice(((768, 0), (768, 0), (769, 0), (767, 0), (768, 1), (769, 1)))
    x2, y2 = twice[0] + dx, twice[1] + dy
    ends = [x2 // 2, y2 // 2, x2 - x2 // 2, y2 - y2 // 2]
    if c is not d and max(ends[0], ends[2]) <= 8 * p.width and max(ends[1], ends[3]) <= 8 * p.height:
        c[1] = ends
    return p


def nearby(r):
    """mouth and ramp whose endpoints lie about 32 pixels apart, or turned against one another by about 15 degrees"""
    p = Plan(6, r.choice((1, 6, 8, 8)))
    p.room(0, 0, 2, 0)
    m = p.across(1, 0, 0, width=8.0)
    e = p.across(2, 0, 0, width=8.0 * r.choice((1, 2, 4)), kind=1, ramp=7)
    y = 8 * p.height
    offset = r.choice(((32, 0), (32, 0), (33, 0), (32, 1), (31, 8), (0, 32)))
    offset = (offset[0], offset[1] if y > 32 + offset[1] else 0)
    if r.random() < 0.5 and y >= 56:
        # about a right angle's sixth: tangents close to 2 - sqrt 3
        a, b = r.choice(((4, 15), (11, 41), (3, 11), (8, 30), (12, 45), (15, 56), (11, 40)))
        p.cuts[m][1] = [0, 0, 0, b]
        p.cuts[e][1] = [0, 0, a, b]
    else:
        p.cuts[m][1] = [0, 0, 0, y - offset[1]]
        p.cuts[e][1] = [offset[0], offset[1], r.choice((offset[0], 0)), y]
    return p


FAMILIES = [(fuzz, 6), (slants, 2), (rooms, 16), (single, 6), (rivals, 6), (star, 7), (triangle, 10), (overlay, 7), (interior, 10), (two_interiors, 2),
            (union, 12), (near_flat, 5), (bridge, 8), (linked_bridges, 3), (mutual_bridges, 4), (bridge_and_union, 5), (far_mouth, 6),
            (far_regions, 7), (far_ports, 7), (nearby, 4)]


def large_maps(count, seed=1):
    """(number, map): many rooms or long slants, up to 256 boundaries"""
    for k in range(count):
        r = random.Random(f'large {seed}/{k}')
        p = rooms(r, ((8, 8), (12, 9), (10, 14), (16, 6)), (3, 4, 6, 9)) if r.random() < 0.8 else beside(*(slants(r) for _ in range(8)))
        p.anchors += r.choices(p.walkable(), k=r.choice((0, 4, 20)))
        p = spice(r, p, calm=True)
        del p.cuts[256:]
        yield k, p.finished()


def small_plan(r):
    """a plan of one of the families with few cells"""
    return r.choice([f for f, _ in FAMILIES if f not in (slants, far_mouth, far_regions, near_flat, two_interiors)])(r)


def maps(count, seed=1, first=0):
    """(number, family, map): the same for the same seed, and each map by itself the same however many are drawn"""
    names = [f for f, weight in FAMILIES for _ in range(weight)]
    for k in range(first, first + count):
        r = random.Random(f'{seed}/{k}')
        family = r.choice(names)
        p = family(r)
        if r.random() < 0.1 and p.width + p.height < 30:
            q = r.choice(names)(r)
            if q.width + q.height < 30:
                p = beside(p, q)
        m = spice(r, p, calm=family in (far_mouth, far_regions, far_ports, nearby) or r.random() < 0.4).finished()
        if len(m.spans) > 1024:
            continue
        if r.random() < 0.04:
            m = uneven(r, m)
        m.pass_number = r.choice((1, 2, 3))
        yield k, family.__name__, m


# ---- the report

def count_and_seed(description, usual):
    """of the words on the command line"""
    a = argparse.ArgumentParser(description=description, formatter_class=argparse.RawDescriptionHelpFormatter)
    a.add_argument('count', nargs='?', type=int, default=usual)
    a.add_argument('seed', nargs='?', default=1)
    options = a.parse_args()
    return options.count, options.seed


def main():
    count, seed = count_and_seed(__doc__, 3000)
    notes, families, cells = Counter(), Counter(), 0
    for _, family, m in maps(count, seed):
        families[family] += 1
        cells += len(m.cells)
        if len(m.boundaries) // 9 != len(m.spans) // 4:
            notes['map: unequal counts'] += 1
        ends = [m.boundaries[i:i + 4] for i in range(0, len(m.boundaries), 9)]
        notes['map: boundaries unlike their spans'] += ends != [m.spans[i:i + 4] for i in range(0, len(m.spans), 4)]
        notes['map: boundary of no length'] += any(e[:2] == e[2:] for e in ends)
        anchors = reference.groups(m.anchors, 2)
        notes['map: repeated anchor'] += len(set(anchors)) < len(anchors)
        notes['map: anchor on a blocked cell'] += any(m.cells[y * m.width + x] & 1 == 0 for x, y in anchors)
        for m.pass_number in (1, 2, 3):
            refusal = reference.early_refusal(m, reference.lend(m), True)
            if refusal:
                notes[f'map: refused {refusal[0]}'] += 1
                break
            reference.results(m, notes)
    print(f'{sum(families.values())} maps, {cells} cells, seed {seed}')
    print('families:', ', '.join(f'{name} {n}' for name, n in sorted(families.items())))
    for name in sorted(notes):
        print(f'{notes[name]:7} {name}')
    sheets = Counter()
    for _, what, data in damage.sheets(small_plan, count, seed):
        words = keptlist(data).split()
        sheets[f'{words[0]} {words[1]}' if words[0] == 'refused' else words[0]] += 1
    print(f'{count} damaged sheets:', ', '.join(f'{name}: {n}' for name, n in sorted(sheets.items())))


if __name__ == '__main__':
    main()
