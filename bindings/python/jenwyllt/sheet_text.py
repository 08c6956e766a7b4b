"""Sheets as text: reads a text that a person can write and draw, and prints a sheet as that text. FORMAT says how it looks."""
from __future__ import annotations

import math
import re

from .sheet import MOST_ENTRIES, MOST_SIDE, Boundary, Kind, Point, Sheet, Span, bits_of, double_of

FORMAT = """\
The text has one entry a line. A comment runs from a semicolon to the end of its line; empty lines count for nothing.

  pass 3                              the pass that shall run
  map 4 3                             width and height in cells; so many rows follow, each drawn with one character a cell:
  #0##                                  #       blocked
  0000                                  0 .. 3  walkable, of elevation 0 .. 3
  ##a#                                  a .. d  walkable and a ramp, of elevation 0 .. 3
                                        ?       any other byte: its number stands behind the row, one for each ? in order, as in  #?0? 16 255
  boundary 16 8 16 16 8.0             x y x y in pixels (8 to a cell), and the width
  boundary 8 8 8 16 8.0 lower 7 0 1   the same with a ramp: its lower or upper end, its id, its lower and upper elevation
  span 8 0 8 16                       the span of the boundary above, where it is not the line of the boundary itself
  anchor 1 0                          x y in cells

What else a sheet can hold: `kind N ID LOWER UPPER` in place of `lower` or `upper` for any other kind, or for kind 0 with numbers behind it; a width as the
64 bits of a double, 0x and 16 digits; and a line `spans` for spans of their own: all `span` lines then stand behind it and are the list of spans in order,
as many as there are, and the boundaries give none. Numbers are decimal, or hexadecimal with 0x, below 2^64.

Every well-formed sheet can be printed. A sheet of kind 3, whose boundaries are its spans, is written from its text again; a text whose spans are others can be run
and drawn, and is not written. Whether the entries fit the map is not asked here: keptlist says so."""

DRAWN = {'#': 0, '0': 1, '1': 5, '2': 9, '3': 13, 'a': 3, 'b': 7, 'c': 11, 'd': 15}
CHARACTER = {cell: character for character, cell in DRAWN.items()}
WORD_OF_KIND = {Kind.LOWER: 'lower', Kind.UPPER: 'upper'}
KIND_OF_WORD = {word: kind for kind, word in WORD_OF_KIND.items()}
LONGEST_NUMBER = 24                 # digits that can stand for 64 bits, zeros in front apart


class Wrong(Exception):
    """what is wrong with a text, and at which line"""

    def __init__(self, line: int, what: str):
        super().__init__(f'line {line}: {what}')
        self.line, self.what = line, what


def quoted(word: str) -> str:
    """not more of it than a line can show"""
    return repr(word if len(word) <= 40 else f'{word[:37]}...')


# ---- from text to a sheet

def number(line: int, word: str, what: str) -> int:
    if not re.fullmatch(r'[0-9]+|0[xX][0-9a-fA-F]+', word):
        raise Wrong(line, f'{what} must be a whole number, not {quoted(word)}')
    hexadecimal = word[:2] in ('0x', '0X')
    digits = (word[2:] if hexadecimal else word).lstrip('0') or '0'
    if len(digits) > LONGEST_NUMBER or int(digits, 16 if hexadecimal else 10) >= 1 << 64:
        raise Wrong(line, f'{what} is over 64 bits: {quoted(word)}')
    return int(digits, 16 if hexadecimal else 10)


def numbers(line: int, words: list[str], *names: str) -> list[int]:
    """one number for each name"""
    if len(words) != len(names):
        raise Wrong(line, f'{len(names)} numbers are needed ({", ".join(names)}), and there are {len(words)}')
    return [number(line, word, name) for word, name in zip(words, names)]


def ends(line: int, words: list[str]) -> Span:
    return Span.of_numbers(numbers(line, words, 'x', 'y', 'x', 'y'))


def width_bits(line: int, word: str) -> int:
    """of a decimal number or of the bits of a double"""
    if word[:2] in ('0x', '0X'):
        return number(line, word, 'the width')
    if not re.fullmatch(r'-?([0-9]+\.?[0-9]*|\.[0-9]+)([eE][-+]?[0-9]+)?', word):
        raise Wrong(line, f'the width must be a number, or 0x and the bits of a double, not {quoted(word)}')
    if math.isinf(float(word)):
        raise Wrong(line, f'the width is beyond the doubles: {quoted(word)}')
    return bits_of(float(word))


class Text:
    """the lines of a text, read from the first to the last"""

    def __init__(self, text: str):
        lines = text.split('\n')
        words = [line.split(';', 1)[0].split() for line in lines]
        self.lines = [(k, each) for k, each in enumerate(words, 1) if each]
        self.last = len(lines)
        self.at = 0
        self.pass_number: int | None = None
        self.size: tuple[int, int] | None = None
        self.cells = bytearray()
        self.boundaries: list[Boundary] = []
        self.spans: list[Span | None] = []                             # of the boundaries, None where a boundary is its own span
        self.own_spans: list[Span] | None = None                       # behind a line `spans`
        self.anchors: list[Point] = []

    def next(self) -> tuple[int, list[str]]:
        self.at += 1
        return self.lines[self.at - 1]

    def read(self) -> Sheet:
        entries = {'pass': self.pass_line, 'map': self.map_lines, 'boundary': self.boundary, 'span': self.span, 'spans': self.list_of_spans,
                   'anchor': self.anchor}
        while self.at < len(self.lines):
            line, (name, *words) = self.next()
            if name not in entries:
                raise Wrong(line, f'an entry begins with {", ".join(entries)}, not with {quoted(name)}')
            entries[name](line, words)
        if self.pass_number is None:
            raise Wrong(self.last, 'there is no line `pass`')
        if self.size is None:
            raise Wrong(self.last, 'there is no line `map`')
        spans = self.own_spans
        if spans is None:
            spans = [span or boundary.span for span, boundary in zip(self.spans, self.boundaries)]
        return Sheet(self.pass_number, *self.size, bytes(self.cells), tuple(spans), tuple(self.boundaries), tuple(self.anchors))

    def pass_line(self, line: int, words: list[str]) -> None:
        if self.pass_number is not None:
            raise Wrong(line, 'a second line `pass`')
        self.pass_number, = numbers(line, words, 'pass')

    def map_lines(self, line: int, words: list[str]) -> None:
        if self.size is not None:
            raise Wrong(line, 'a second line `map`')
        width, height = self.size = tuple(numbers(line, words, 'width', 'height'))
        for name, side in (('width', width), ('height', height)):
            if not 1 <= side <= MOST_SIDE:
                raise Wrong(line, f'the {name} must be 1 to {MOST_SIDE:,} cells, and is {side}')
        for row in range(height):
            if self.at == len(self.lines):
                raise Wrong(self.last, f'the map of line {line} has {height} rows, and the text ends before row {row + 1}')
            self.row(width, *self.next())

    def row(self, width: int, line: int, words: list[str]) -> None:
        drawn, others = words[0], words[1:]
        if len(drawn) != width:
            raise Wrong(line, f'a row of {width} cells is needed, and this has {len(drawn)}: {quoted(drawn)}')
        if drawn.count('?') != len(others):
            raise Wrong(line, f'{drawn.count("?")} cells are drawn ?, and behind the row stand {len(others)} numbers')
        for character in drawn:
            if character == '?':
                cell = number(line, others.pop(0), 'a cell')
                if cell > 255:
                    raise Wrong(line, f'a cell is one byte, at most 255, not {cell}')
                self.cells.append(cell)
            elif character in DRAWN:
                self.cells.append(DRAWN[character])
            else:
                raise Wrong(line, f'a cell is drawn #, 0 to 3, a to d or ?, not {character!r}')

    def boundary(self, line: int, words: list[str]) -> None:
        if len(self.boundaries) == MOST_ENTRIES:
            raise Wrong(line, f'over {MOST_ENTRIES} boundaries')
        if len(words) not in (5, 9, 10):
            raise Wrong(line, 'a boundary is x y x y width, and with a ramp also lower or upper, its id and two elevations')
        span = ends(line, words[:4])
        ramp = self.ramp(line, words[5], words[6:]) if len(words) > 5 else []
        self.boundaries.append(Boundary(*span, width_bits(line, words[4]), *ramp))
        self.spans.append(None)

    def ramp(self, line: int, word: str, words: list[str]) -> list[int]:
        names = ['id', 'lower elevation', 'upper elevation']
        if word == 'kind':
            return numbers(line, words, 'kind', *names)
        if word not in KIND_OF_WORD:
            raise Wrong(line, f'behind the width of a boundary stands lower, upper or kind, not {quoted(word)}')
        return [KIND_OF_WORD[word], *numbers(line, words, *names)]

    def span(self, line: int, words: list[str]) -> None:
        span = ends(line, words)
        if self.own_spans is not None:
            if len(self.own_spans) == MOST_ENTRIES:
                raise Wrong(line, f'over {MOST_ENTRIES} spans')
            self.own_spans.append(span)
        elif not self.spans:
            raise Wrong(line, 'a span stands behind its boundary, or behind a line `spans`')
        elif self.spans[-1] is not None:
            raise Wrong(line, 'the boundary above has a span already')
        else:
            self.spans[-1] = span

    def list_of_spans(self, line: int, words: list[str]) -> None:
        numbers(line, words)
        if self.own_spans is not None:
            raise Wrong(line, 'a second line `spans`')
        if any(self.spans):
            raise Wrong(line, 'a boundary above has a span of its own: either all spans stand behind `spans` or none')
        self.own_spans = []

    def anchor(self, line: int, words: list[str]) -> None:
        if len(self.anchors) == MOST_ENTRIES:
            raise Wrong(line, f'over {MOST_ENTRIES} anchors')
        self.anchors.append(Point(*numbers(line, words, 'x', 'y')))


def sheet_of(text: str) -> Sheet:
    """of a text, or Wrong"""
    return Text(text).read()


# ---- from a sheet to text

def width_word(bits: int) -> str:
    word = repr(double_of(bits))
    return word if re.fullmatch(r'[-+.0-9e]+', word) and bits_of(float(word)) == bits else f'0x{bits:016x}'


def row_of(cells: bytes) -> str:
    drawn = ''.join(CHARACTER.get(cell, '?') for cell in cells)
    return ' '.join([drawn, *(str(cell) for cell in cells if cell not in CHARACTER)])


def span_line(span: Span) -> str:
    return ' '.join(map(str, ['span', *span.numbers()]))


def boundary_line(k: int, boundary: Boundary) -> str:
    """with its number, by which kept lists and refusals name it, as a comment"""
    ramp = [boundary.ramp, boundary.lower, boundary.upper]
    words = ['boundary', *boundary.span.numbers(), width_word(boundary.width_bits)]
    if boundary.kind in WORD_OF_KIND:
        words += [WORD_OF_KIND[Kind(boundary.kind)], *ramp]
    elif boundary.kind or any(ramp):
        words += ['kind', int(boundary.kind), *ramp]
    return f'{" ".join(map(str, words)):<42} ; {k}'


def text_of(sheet: Sheet) -> str:
    lines = [f'pass {sheet.pass_number}', f'map {sheet.width} {sheet.height}']
    lines += [row_of(sheet.cells[k:k + sheet.width]) for k in range(0, len(sheet.cells), sheet.width)]
    own = len(sheet.spans) != len(sheet.boundaries)
    for k, boundary in enumerate(sheet.boundaries):
        lines.append(boundary_line(k, boundary))
        if not own and sheet.spans[k] != boundary.span:
            lines.append(span_line(sheet.spans[k]))
    if own:
        lines += ['spans', *map(span_line, sheet.spans)]
    lines += [f'anchor {x} {y}' for x, y in sheet.anchors]
    return '\n'.join(lines) + '\n'
