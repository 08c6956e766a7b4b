"""What a run found, as the numbers of a result sheet; a result in words, the first entry in which two differ, and why a result is refused."""
from __future__ import annotations

from collections.abc import Iterator, Sequence

from .explained import numbers_of
from .kept import ROW_NUMBERS, Kept
from .partition import PAIR_NUMBERS, TALLY_NUMBERS
from .refusal import Cause, Refusal
from .results import RunResult
from .sheet import grouped

KIND = 2
LABELS_A_LINE = 64


def found(kept: Kept) -> RunResult:
    """what a run left in its lists of 32 bits, as numbers of any size"""
    of = kept.partition
    rows = [number for row in kept.rows for number in (row.number, *row.start, *row.end)]
    return RunResult(of.regions, of.labels, [n for tally in of.tallies for n in tally], [n for pair in of.pairs for n in pair], rows)


# ---- a result in words

def counted(count: int, word: str) -> str:
    return f'{count:,} {word}{"" if count == 1 else "s"}'


def tally_words(two: Sequence[int]) -> str:
    return f'{counted(two[0], "step")} removed, {two[1]:,} between regions'


def pair_words(three: Sequence[int]) -> str:
    return f'span {three[0]} parts {three[1]} and {three[2]}'


def row_words(five: Sequence[int]) -> str:
    return f'boundary {five[0]} from {five[1]} {five[2]} to {five[3]} {five[4]}'


# the lists of a result: what an entry is called, how many numbers it has, and an entry in words
ENTRIES = (('label', 1, lambda one: f'{one[0]}'), ('span', TALLY_NUMBERS, tally_words), ('pair row', PAIR_NUMBERS, pair_words), ('row', ROW_NUMBERS, row_words))


def lines(of: RunResult) -> Iterator[str]:
    counts = [counted(len(each) // size, name) for (name, size, _), each in zip(ENTRIES, of[1:])]
    yield f'{counted(of.regions, "region")}, {", ".join(counts)}'
    for k in range(0, len(of.labels), LABELS_A_LINE):
        yield f'labels from {k}: {" ".join(map(str, of.labels[k:k + LABELS_A_LINE]))}'
    for (name, size, words), each in list(zip(ENTRIES, of[1:]))[1:]:
        for k, entry in enumerate(grouped(each, size)):
            yield f'{name} {k}: {words(entry)}'


def printed(of: RunResult) -> str:
    return ''.join(f'{line}\n' for line in lines(of))


# ---- whether a result is that of a run

def first_difference(stored: RunResult, run: RunResult) -> str | None:
    """in words, where the two differ first: the region count, then each list entry by entry"""
    def differ(what: str, one: str, two: str) -> str:
        return f'{what}: the result has {one}; the run finds {two}'

    if stored.regions != run.regions:
        return differ('region count', f'{stored.regions:,}', f'{run.regions:,}')
    for (name, size, words), mine, other in zip(ENTRIES, stored[1:], run[1:]):
        for k, (one, two) in enumerate(zip(grouped(mine, size), grouped(other, size))):
            if tuple(one) != tuple(two):
                return differ(f'{name} {k}', words(one), words(two))
        if len(mine) != len(other):
            return differ(f'number of {name}s', f'{len(mine) // size:,}', f'{len(other) // size:,}')
    return None


# ---- why a result is refused

def ill_formed_words(data: bytes, place: int) -> str:
    """of refusal 14"""
    if not data:
        return 'there are no bytes'
    if place >= len(data):
        return f'the result ends early, behind {counted(len(data), "byte")}'
    value, wrong = next((value, wrong) for first, value, wrong in numbers_of(data) if first == place)
    if value is None:
        return f'the number at byte {place} {wrong}'
    if place == 0:
        return f'the sheet is of kind {value}, not {KIND}'
    left = len(data) - place
    return f'the result is over at byte {place}, and {counted(left, "byte")} {"is" if left == 1 else "are"} left'


class Walk:
    """the numbers of a well-formed sheet with their places"""

    def __init__(self, data: bytes):
        self.numbers = [(first, value) for first, value, _ in numbers_of(data) if value is not None]
        self.regions = self.numbers[1][1]

    def lists(self) -> Iterator[tuple[str, list[tuple[int, tuple[int, ...]]]]]:
        """of each list what an entry is called, and the entries, each with its place"""
        at = 2
        for name, size, _ in ENTRIES:
            end = at + 1 + size * self.numbers[at][1]
            values = [value for _, value in self.numbers[at + 1:end]]
            places = [first for first, _ in self.numbers[at + 1:end:size]]
            yield name, list(zip(places, map(tuple, grouped(values, size))))
            at = end


def label_words(walk: Walk, labels: list[tuple[int, tuple[int, ...]]], k: int) -> str:
    label, started = labels[k][1][0], max((before for _, (before,) in labels[:k]), default=0)
    if label > started + 1:
        return f'label {k} is {label}, and the labels before it start {counted(started, "number")}: it can be {started + 1} at most'
    return f'label {k} is {label}, over the region count {walk.regions}'


def broken_words(data: bytes, place: int) -> str:
    """of refusal 15"""
    walk = Walk(data)
    for (_, _, words), (name, entries) in zip(ENTRIES, walk.lists()):
        for k, (first, entry) in enumerate(entries):
            if first == place:
                return label_words(walk, entries, k) if name == 'label' else f'{name} {k}, {words(entry)}, is not above the one before it, {words(entries[k - 1][1])}'
    started = max((label for name, entries in walk.lists() if name == 'label' for _, (label,) in entries), default=0)
    return f'the region count is {walk.regions}, and the labels start {counted(started, "number")}'


def explained(refusal: Refusal, data: bytes) -> Refusal:
    """the refusal of a result in words about its bytes"""
    if refusal.number == Cause.SHEET:
        return Refusal(refusal.number, refusal.place, ill_formed_words(data, refusal.place))
    if refusal.number == Cause.RESULT:
        return Refusal(refusal.number, refusal.place, f'at byte {refusal.place} {broken_words(data, refusal.place)}')
    return refusal
