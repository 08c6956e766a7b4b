"""Runner and guard as a picture (SVG): as `drawing`, cut by the kept boundaries alone, with the kept graph over it and, where there is one, a line of play.

A region is a disc at the cell nearest to its middle, an edge a line between two; a square stands about the goal. Each move to another region is an arrow with its
number; moves along the same way in the same direction share one.
"""
from __future__ import annotations

import math
from collections.abc import Callable

from .drawing import INK, Picture
from .game import KeptGame
from .game_play import Play
from .sheet import Sheet

RUNNER, GUARD, EDGE = '#c77700', '#8a0f5e', '#22262b'
ASIDE = {RUNNER: 7, GUARD: 14}      # how far beside the edge an arrow runs, to the right as it goes
STARTS = {RUNNER: '#ffd84d', GUARD: '#e7a3cf'}
HEAD = 7


class GamePicture(Picture):
    def __init__(self, sheet: Sheet, kept: KeptGame, play: Play | None = None, title: str | None = None):
        self.graph, self.play = kept, play
        self.edges = sorted({(pair.smaller, pair.larger) for pair in kept.partition.pairs})
        words = f'runner and guard, goal {kept.game.goal}: {kept.game.regions} regions by the {len(kept.rows)} of {kept.boundaries} boundaries kept'
        if play:
            first = play.places[0]
            words = f'runner and guard, goal {kept.game.goal}, runner from {first.runner}, guard from {first.guard}: {len(play.places) - 1} moves, {play.end.value}'
        super().__init__(sheet, kept.partition, [row.number for row in kept.rows], title or words)

    def region_numbers(self) -> None:
        """nothing: the discs of the graph have them"""

    def lines(self) -> None:
        super().lines()
        self.nodes = self.middles()
        for a, b in self.edges:
            (x1, y1), (x2, y2) = self.nodes[a], self.nodes[b]
            self.put('line', x1=x1, y1=y1, x2=x2, y2=y2, stroke=EDGE, stroke_width=2)
        for region in self.nodes:
            self.node(region)
        for (colour, a, b), numbers in self.moves().items():
            self.arrow(colour, a, b, ', '.join(map(str, numbers)))

    def radius(self) -> float:
        return min(15, self.cell / 2)

    def node(self, region: int) -> None:
        (x, y), radius = self.nodes[region], self.radius()
        if region == self.graph.game.goal:
            self.square(x, y)
        first = self.play.places[0] if self.play else None
        fill = '#ffffff' if first is None else STARTS[GUARD] if region == first.guard else STARTS[RUNNER] if region == first.runner else '#ffffff'
        self.disc(x, y, fill)
        self.write(x, y, region, int(min(14, radius)), font_weight='bold')

    def square(self, x: float, y: float) -> None:
        half = self.radius() + 4
        self.put('rect', x=x - half, y=y - half, width=2 * half, height=2 * half, fill='#ffffff', stroke=INK, stroke_width=3)

    def disc(self, x: float, y: float, fill: str) -> None:
        self.put('circle', cx=x, cy=y, r=self.radius(), fill=fill, stroke=INK, stroke_width=2)

    def moves(self) -> dict[tuple[str, int, int], list[int]]:
        """the numbers of the moves from one region to another, by who moves"""
        out: dict[tuple[str, int, int], list[int]] = {}
        places = self.play.places if self.play else []
        for number, (old, new) in enumerate(zip(places, places[1:]), 1):
            colour, a, b = (RUNNER, old.runner, new.runner) if old.runners_turn else (GUARD, old.guard, new.guard)
            if a != b:
                out.setdefault((colour, a, b), []).append(number)
        return out

    def arrow(self, colour: str, a: int, b: int, words: str) -> None:
        """beside the edge, from disc to disc, with the numbers of its moves on its middle"""
        (x1, y1), (x2, y2) = self.nodes[a], self.nodes[b]
        long = math.hypot(x2 - x1, y2 - y1)
        ux, uy = (x2 - x1) / long, (y2 - y1) / long
        aside, gap = ASIDE[colour], min(self.radius(), long / 3)
        x1, y1, x2, y2 = x1 + gap * ux - aside * uy, y1 + gap * uy + aside * ux, x2 - gap * ux - aside * uy, y2 - gap * uy + aside * ux
        self.stroke(colour, x1, y1, x2, y2, ux, uy)
        x, y = (x1 + x2) / 2, (y1 + y2) / 2
        self.put('rect', x=x - 3.5 * len(words) - 3, y=y - 7.0, width=7.0 * len(words) + 6, height=14, rx=3, fill='#ffffff', stroke=colour, stroke_width=1)
        self.write(x, y, words, 11, fill=colour, font_weight='bold')

    def stroke(self, colour: str, x1: float, y1: float, x2: float, y2: float, ux: float, uy: float) -> None:
        """a line with a head; (ux, uy) is its direction"""
        self.put('line', x1=x1, y1=y1, x2=x2, y2=y2, stroke=colour, stroke_width=3)
        base, half = (x2 - HEAD * ux, y2 - HEAD * uy), HEAD / 2
        corners = ((x2, y2), (base[0] - half * uy, base[1] + half * ux), (base[0] + half * uy, base[1] - half * ux))
        self.put('polygon', points=' '.join(f'{x:.2f},{y:.2f}' for x, y in corners), fill=colour, stroke=colour, stroke_width=1)

    def legend(self) -> list[tuple[str, Callable[[float], None]]]:
        entries = [entry for entry in super().legend() if not entry[0].startswith('region and its label')]
        entries.append((f'region (of {self.regions})', lambda y: self.small(y, '#ffffff')))
        if self.edges:
            entries.append((f'edge (of {len(self.edges)})', lambda y: self.put('line', x1=0, y1=y, x2=32, y2=y, stroke=EDGE, stroke_width=2)))
        entries.append(('goal', lambda y: self.put('rect', x=7, y=y - 9, width=18, height=18, fill='#ffffff', stroke=INK, stroke_width=3)))
        if self.play:
            entries.append(('where the runner starts', lambda y: self.small(y, STARTS[RUNNER])))
            entries.append(('where the guard starts', lambda y: self.small(y, STARTS[GUARD])))
            movers = {colour for colour, _, _ in self.moves()}
            entries += [(words, lambda y, colour=colour: self.stroke(colour, 0, y, 32, y, 1, 0))
                        for words, colour in (('moves of the runner', RUNNER), ('moves of the guard', GUARD)) if colour in movers]
        return entries

    def small(self, y: float, fill: str) -> None:
        self.put('circle', cx=16, cy=y, r=9, fill=fill, stroke=INK, stroke_width=2)
