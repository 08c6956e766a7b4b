"""A map and its kept boundaries as a picture (SVG).

Drawn are the cells by their elevation, ramps hatched; the regions into which the spans cut the map, outlined along the edges of cells and numbered by their
labels; kept boundaries as solid lines, removed ones dashed, each with its number (and L or U at the lower or upper end of a ramp); spans that are not their
boundary's line, dotted; anchors.
"""
from __future__ import annotations

import functools
import itertools
from collections.abc import Callable, Collection
from typing import Any
from xml.sax.saxutils import escape

from .partition import Partition
from .ranked import Ranked
from .sheet import PIXELS_PER_CELL, Sheet, Span

SMALLEST_CELL, LARGEST_CELL, WIDEST = 12, 80, 960             # a cell's side in the picture, and how wide a map is to be
LEGEND_WIDTH, LEGEND_LINE, MARGIN, TITLE = 230, 28, 16, 34
BLOCKED = '#4a4f57'
GROUND = ('#f6f1de', '#e0dba6', '#bccd8c', '#95b87d')    # elevations 0 to 3
HATCH, OUTLINE, KEPT, REMOVED, ANCHOR, INK = '#8a6d3b', '#7a8088', '#0b4fb3', '#d1320f', '#6a1fa0', '#22262b'
KEPT_LOOK: dict[str, Any] = {'stroke': KEPT, 'stroke_width': 4.5}
REMOVED_LOOK: dict[str, Any] = {'stroke': REMOVED, 'stroke_width': 4, 'stroke_dasharray': '7 5'}
SPAN_LOOK: dict[str, Any] = {'stroke': INK, 'stroke_width': 2, 'stroke_dasharray': '2 4'}


def element(name: str, **attributes: Any) -> str:
    inside = attributes.pop('text', None)
    words = ''.join(f' {key.replace("_", "-")}="{value:g}"' if isinstance(value, float) else f' {key.replace("_", "-")}="{value}"'
                    for key, value in attributes.items())
    return f'<{name}{words}/>' if inside is None else f'<{name}{words}>{escape(str(inside))}</{name}>'


def look_of(cell: int) -> int:
    """the low four bits of a walkable cell; all blocked cells look alike"""
    return cell & 15 if cell & 1 else 0


class Picture:
    """of a map that a pass accepts, its partition, and the numbers of the kept boundaries"""

    def __init__(self, sheet: Sheet, partition: Partition, kept: Collection[int], title: str | None = None, proved: bool = True):
        self.sheet, self.kept = sheet, set(kept)
        self.labels, self.regions = partition.labels, partition.regions
        self.title = title or f'pass {sheet.pass_number}: {len(kept)} of {len(sheet.boundaries)} boundaries kept'
        if not proved:
            self.title += ' (unproved)'
        self.cell = min(max(WIDEST // sheet.width, SMALLEST_CELL), LARGEST_CELL)
        self.out: list[str] = []

    def put(self, name: str, **attributes: Any) -> None:
        self.out.append(element(name, **attributes))

    def write(self, x: float, y: float, text: object, size: int, middle: bool = True, **look: Any) -> None:
        """text about its middle; the numbers of a font of this size are 0.72 of it high"""
        self.put('text', x=x, y=y + 0.36 * size, font_size=size, **({'text_anchor': 'middle'} if middle else {}), **{'fill': INK, **look}, text=text)

    def svg(self) -> str:
        entries = self.legend()
        width, height = self.sheet.width * self.cell, self.sheet.height * self.cell
        total, tall = width + LEGEND_WIDTH + 3 * MARGIN, max(height, LEGEND_LINE * len(entries)) + TITLE + 2 * MARGIN
        self.put('rect', width=total, height=tall, fill='#ffffff')
        self.write(MARGIN, MARGIN + 9, self.title, 18, middle=False, font_weight='bold')
        self.out.append(f'<g transform="translate({MARGIN} {MARGIN + TITLE})">')
        self.terrain()
        self.outlines()
        self.put('rect', width=width, height=height, fill='none', stroke=INK, stroke_width=1)
        self.region_numbers()
        self.lines()
        for x, y in sorted(set(self.sheet.anchors)):
            self.anchor((x + 0.5) * self.cell, (y + 0.5) * self.cell)
        self.out.append('</g>')
        self.out.append(f'<g transform="translate({width + 2 * MARGIN} {MARGIN + TITLE})">')
        for k, (words, sample) in enumerate(entries):
            y = LEGEND_LINE * (k + 0.5)
            sample(y)
            self.write(50, y, words, 13, middle=False)
        self.out.append('</g>')
        head = [f'<svg xmlns="http://www.w3.org/2000/svg" width="{total}" height="{tall}" viewBox="0 0 {total} {tall}" font-family="DejaVu Sans, sans-serif">',
                '<defs><pattern id="ramp" width="8" height="8" patternUnits="userSpaceOnUse" patternTransform="rotate(45)">'
                f'<line x1="0" y1="0" x2="0" y2="8" stroke="{HATCH}" stroke-width="3"/></pattern></defs>']
        return '\n'.join(head + self.out + ['</svg>']) + '\n'

    def ground(self, look: int, **box: float) -> None:
        fill = GROUND[look >> 2] if look else BLOCKED
        self.put('rect', **box, fill=fill, shape_rendering='crispEdges')
        if look & 2:
            self.put('rect', **box, fill='url(#ramp)', fill_opacity=0.55)

    def terrain(self) -> None:
        """runs of like cells of a row as one rectangle"""
        width = self.sheet.width
        for y in range(self.sheet.height):
            looks = [look_of(cell) for cell in self.sheet.cells[y * width:(y + 1) * width]]
            x = 0
            for look, run in itertools.groupby(looks):
                long = len(list(run))
                self.ground(look, x=x * self.cell, y=y * self.cell, width=long * self.cell, height=self.cell)
                x += long

    def outlines(self) -> None:
        """along the edges of cells, where the regions on the two sides differ"""
        width, height, cell = self.sheet.width, self.sheet.height, self.cell
        path: list[str] = []

        def label(x: int, y: int) -> int:
            return self.labels[y * width + x] if x < width and y < height else 0
        for y in range(height):
            for x in range(width):
                here, right, below = label(x, y), label(x + 1, y), label(x, y + 1)
                if here and right and here != right:
                    path.append(f'M{(x + 1) * cell} {y * cell}v{cell}')
                if here and below and here != below:
                    path.append(f'M{x * cell} {(y + 1) * cell}h{cell}')
        if path:
            self.put('path', d=''.join(path), stroke=OUTLINE, stroke_width=2, fill='none')

    def middles(self) -> dict[int, tuple[float, float]]:
        """the cell of each region nearest to the middle of the region, by its label"""
        cells: dict[int, list[tuple[int, int]]] = {}
        for k, label in enumerate(self.labels):
            if label:
                cells.setdefault(label, []).append((k % self.sheet.width, k // self.sheet.width))
        out = {}
        for label, those in cells.items():
            cx, cy = (sum(c[i] for c in those) / len(those) for i in (0, 1))
            x, y = min(those, key=lambda c: (c[0] - cx) ** 2 + (c[1] - cy) ** 2)
            out[label] = ((x + 0.5) * self.cell, (y + 0.5) * self.cell)
        return out

    def region_numbers(self) -> None:
        for label, (x, y) in self.middles().items():
            self.write(x, y, label, min(14, self.cell // 2), fill_opacity=0.6)

    def lines(self) -> None:
        for span in self.spans_elsewhere():
            self.line(span, **SPAN_LOOK)
        boundaries = self.sheet.boundaries
        order = sorted(range(len(boundaries)), key=lambda number: number in self.kept)              # the kept ones over the removed
        for number in order:
            self.line(boundaries[number].span, stroke='#ffffff', stroke_width=7)
            self.line(boundaries[number].span, **(KEPT_LOOK if number in self.kept else REMOVED_LOOK))
        for number in order:
            x, y = (sum(both) / 2 / PIXELS_PER_CELL * self.cell for both in zip(*boundaries[number].span))
            self.tag(x, y, self.words_of(number), number in self.kept)

    def words_of(self, number: int) -> str:
        """what stands on a boundary"""
        return f'{number}{("", "L", "U")[self.sheet.boundaries[number].kind]}'

    def spans_elsewhere(self) -> list[Span]:
        spans, boundaries = self.sheet.spans, self.sheet.boundaries
        if len(spans) != len(boundaries):
            return list(spans)
        return [span for span, boundary in zip(spans, boundaries) if span != boundary.span]

    def line(self, span: Span, **look: Any) -> None:
        x1, y1, x2, y2 = (c / PIXELS_PER_CELL * self.cell for c in span.numbers())
        self.put('line', x1=x1, y1=y1, x2=x2, y2=y2, **look)

    def tag(self, x: float, y: float, words: str, kept: bool) -> None:
        """the number of a boundary on its middle"""
        size = min(12, self.cell // 3)
        colour, wide = KEPT if kept else REMOVED, (0.72 * len(words) + 0.6) * size
        self.put('rect', x=x - wide / 2, y=y - 0.75 * size, width=wide, height=1.5 * size, rx=4, fill='#ffffff', stroke=colour, stroke_width=1.2)
        self.write(x, y, words, size, fill=colour, font_weight='bold')

    def anchor(self, x: float, y: float) -> None:
        """a ring about the cell's middle"""
        radius = min(12, self.cell / 3)
        self.put('circle', cx=x, cy=y, r=radius, fill='none', stroke='#ffffff', stroke_width=5)
        self.put('circle', cx=x, cy=y, r=radius, fill='none', stroke=ANCHOR, stroke_width=2.5)

    # -- the legend: (words, what draws the sample at a height), for what occurs in the picture

    def legend(self) -> list[tuple[str, Callable[[float], None]]]:
        looks = {look_of(cell) for cell in self.sheet.cells}
        grounds = [('blocked', 0)] * (0 in looks) + [(f'elevation {e}', 4 * e + 1) for e in range(4) if {4 * e + 1, 4 * e + 3} & looks]
        grounds += [('ramp', 3)] * any(look & 2 for look in looks)
        entries: list[tuple[str, Callable[[float], None]]] = [(words, functools.partial(self.ground_sample, look)) for words, look in grounds]
        if self.regions:
            entries.append((f'region and its label (of {self.regions})', self.region_sample))
        boundaries = self.sheet.boundaries
        for count, words, look in ((len(self.kept), 'kept boundary', KEPT_LOOK), (len(boundaries) - len(self.kept), 'removed boundary', REMOVED_LOOK),
                                   (len(self.spans_elsewhere()), 'span, not at its boundary', SPAN_LOOK)):
            if count:
                entries.append((f'{words} ({count})', functools.partial(self.line_sample, look)))
        if boundaries:
            entries.append(('its number in the sheet', lambda y: self.tag(16, y, '0', bool(self.kept))))
        if any(boundary.kind for boundary in boundaries):
            entries.append(('lower, upper end of a ramp', self.ends_sample))
        if self.sheet.anchors:
            entries.append(('anchor', lambda y: self.anchor(16, y)))
        return entries

    def line_sample(self, look: dict[str, Any], y: float) -> None:
        self.put('line', x1=0, y1=y, x2=32, y2=y, **look)

    def ends_sample(self, y: float) -> None:
        self.tag(5, y, '0L', True)
        self.tag(32, y, '1U', True)

    def ground_sample(self, look: int, y: float) -> None:
        self.ground(look, x=0, y=y - 9, width=32, height=18)
        self.put('rect', x=0, y=y - 9, width=32, height=18, fill='none', stroke=OUTLINE, stroke_width=1)

    def region_sample(self, y: float) -> None:
        self.put('rect', x=0, y=y - 9, width=32, height=18, fill=GROUND[0], stroke=OUTLINE, stroke_width=2)
        self.write(16, y, 1, 13, fill_opacity=0.6)


class RankedPicture(Picture):
    """of pass 3 with its ranked list: behind a boundary's number stand the ranks of the proposals to remove it, with a cross where they were refused"""

    def __init__(self, sheet: Sheet, ranked: Ranked, title: str | None = None, proved: bool = True):
        self.ranked = ranked
        super().__init__(sheet, ranked.kept.partition, [row.number for row in ranked.kept.rows], title, proved)

    def words_of(self, number: int) -> str:
        ranks = [f'{rank}{"" if proposal.taken else "×"}' for rank, proposal in enumerate(self.ranked.proposals) if proposal.boundary == number]
        return super().words_of(number) + (f' #{" #".join(ranks)}' if ranks else '')

    def legend(self) -> list[tuple[str, Callable[[float], None]]]:
        entries = super().legend()
        if self.ranked.proposals:
            entries.append(('proposed, with its rank', lambda y: self.tag(16, y, '#0', False)))
        if not all(proposal.taken for proposal in self.ranked.proposals):
            entries.append(('proposed and refused', lambda y: self.tag(16, y, '#1×', True)))
        return entries
