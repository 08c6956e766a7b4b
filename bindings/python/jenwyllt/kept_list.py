"""The kept list as text, as `keptlist` prints it: what the program takes, and lists read back."""
from __future__ import annotations

from .explained import opening
from .refusal import Cause, Refusal
from .sheet import KIND, MOST_SIDE, OLD_KIND, Sheet, Span

# What the program keptlist takes and lends.
MOST_BYTES, MOST_CELLS, RECORDS, PAIR_ROWS = 65_536, 4_096, 512, 2_048
UNPROVED = 'unproved: by the rendering in Python, which is tested and not proved\n'


def refuse_too_large(data: bytes) -> None:
    """refuses what the program keptlist refuses for its size before it reads on"""
    if len(data) > MOST_BYTES:
        raise Refusal(Cause.SHEET, MOST_BYTES, f'the sheet has {len(data):,} bytes, and keptlist takes {MOST_BYTES:,}; --large takes more')
    opened = opening(data)
    if opened and opened[0] in (OLD_KIND, KIND) and all(1 <= side <= MOST_SIDE for side in opened[2:]) and opened[2] * opened[3] > MOST_CELLS:
        raise Refusal(Cause.SIDES, 0, f'{opened[2]} by {opened[3]} cells are over the {MOST_CELLS:,} of keptlist; --large takes more')


class WrongList(Exception):
    """what is wrong with a kept list"""


def canonical(span: Span) -> Span:
    """the smaller endpoint first"""
    return span if span.start <= span.end else Span(span.end, span.start)


def read_kept(text: str, sheet: Sheet) -> list[int]:
    """the numbers of the kept boundaries; every row must be a boundary of the map, in the order of the list"""
    lines = text.removesuffix(UNPROVED).split('\n')
    count = len(sheet.boundaries)
    words = lines[0].split(' ')
    if words[0] == 'refused':
        raise WrongList(f'line 1: the kept list is a refusal: {lines[0]}')
    if len(words) != 4 or words[0] != 'kept' or words[2] != 'of' or not (words[1] + words[3]).isdigit():
        raise WrongList(f'line 1: a kept list begins with `kept K of N`, not with {lines[0][:40]!r}')
    if int(words[3]) != count:
        raise WrongList(f'line 1: the list is of {words[3]} boundaries, and the map has {count}')
    rows = lines[1:-1] if lines[-1] == '' else lines[1:]
    if len(rows) != int(words[1]):
        raise WrongList(f'line 1: {words[1]} rows are announced, and there are {len(rows)}')
    kept: list[int] = []
    before: tuple[Span, int] | None = None
    for k, row in enumerate(rows, 2):
        words = row.split(' ')
        if len(words) != 5 or not ''.join(words).isdigit():
            raise WrongList(f'line {k}: a row is a number and x y x y, not {row[:40]!r}')
        number, *ends = map(int, words)
        if number >= count:
            raise WrongList(f'line {k}: there is no boundary {number}: the map has {count}')
        if number in kept:
            raise WrongList(f'line {k}: boundary {number} stands twice')
        span, expected = Span.of_numbers(ends), canonical(sheet.boundaries[number].span)
        if span != expected:
            raise WrongList(f'line {k}: boundary {number} lies at {" ".join(map(str, expected.numbers()))}, not at {" ".join(words[1:])}')
        if before is not None and (span, number) < before:
            raise WrongList(f'line {k}: the rows are not in order')
        before = (span, number)
        kept.append(number)
    return kept
