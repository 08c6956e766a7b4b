"""What a refusal of a map means, in words. The number and the place are the library's; here they are only spelled out."""
from __future__ import annotations

import itertools
from collections.abc import Iterator, Sequence

from .refusal import WORDS, Cause, Refusal
from .sheet import ANCHOR_NUMBERS, BOUNDARY_NUMBERS, KIND, MOST_ENTRIES, OLD_KIND, SPAN_NUMBERS, Boundary, Point, Sheet, Span, read_sheet

WIDEST = 65536
LONGEST_NUMBER = 10                 # bytes
CONTINUED = 128                     # the top bit of a byte: another follows
UNLIKELY_KIND = 16                  # a file that begins with such a number was hardly meant for a sheet
MOST_ELEVATION, MOST_RAMP_ELEVATION, MOST_KIND, RAMP_BITS = 3, 7, 2, 32


# ---- faults of a sheet as bytes

def numbers_of(data: bytes) -> Iterator[tuple[int, int | None, str]]:
    """each number with the place of its first byte; the first that is ill formed has no value, and what is wrong with it, and is the last"""
    at = 0
    while at < len(data):
        first, value, byte = at, 0, CONTINUED
        for group in range(LONGEST_NUMBER):
            if byte < CONTINUED:
                break
            if at == len(data):
                yield first, None, 'ends early'
                return
            byte = data[at]
            if group == LONGEST_NUMBER - 1 and byte > 1:
                yield first, None, 'is over 64 bits'
                return
            value |= byte % CONTINUED << (7 * group)
            at += 1
        if byte == 0 and at > first + 1:
            yield first, None, 'is padded: it ends in a group of zero'
            return
        yield first, value, ''


def opening(data: bytes) -> tuple[int, int, int, int] | None:
    """kind, pass, width and height, where the bytes go so far"""
    first = [value for _, value, _ in itertools.islice(numbers_of(data), 4)]
    return None if len(first) < 4 or None in first else tuple(first)


def is_over(values: list[int]) -> bool:
    """whether the sheet is over behind these numbers"""
    if len(values) < 4:
        return False
    at = 4 + values[2] * values[3]
    for size in (SPAN_NUMBERS, BOUNDARY_NUMBERS, ANCHOR_NUMBERS)[values[0] == KIND:]:
        if len(values) <= at:
            return False
        at += 1 + size * values[at]
    return len(values) == at


def sheet_words(data: bytes, place: int) -> str:
    """of refusal 14"""
    if not data:
        return 'there are no bytes'
    if place >= len(data):
        return f'the sheet ends early, behind {len(data)} bytes'
    before, value, wrong = [], None, ''
    for first, value, wrong in numbers_of(data):
        if first == place:
            break
        before.append(value)
    if is_over(before):
        return f'the sheet is over at byte {place}, and {len(data) - place} bytes are left'
    if wrong:
        return f'the number at byte {place} {wrong}'
    if not before:
        kinds = f'{OLD_KIND} or {KIND}'
        return f'the sheet is of kind {value}, not {kinds}' if value < UNLIKELY_KIND else f'this is neither a sheet of kind {kinds} nor a text'
    return f'cell {len(before) - 4} is {value}, over 255'


# ---- faults of a map

def ends_words(span: Span) -> str:
    return f'from {span.start.x} {span.start.y} to {span.end.x} {span.end.y}'


def off_map(sheet: Sheet, point: Point) -> bool:
    return point.x > sheet.pixels.x or point.y > sheet.pixels.y


def off_map_words(sheet: Sheet) -> str:
    return f'an endpoint lies off the map of {sheet.pixels.x} by {sheet.pixels.y} pixels'


def boundary_faults(sheet: Sheet, boundary: Boundary) -> Iterator[str]:
    if off_map(sheet, boundary.start) or off_map(sheet, boundary.end):
        yield off_map_words(sheet)
    if not 0 <= boundary.width <= WIDEST or boundary.width_bits >> 63:
        yield f'its width {boundary.width} is not from 0 to {WIDEST:,}'
    if boundary.kind > MOST_KIND:
        yield f'its kind {boundary.kind} is not 0, 1 or 2'
    if boundary.ramp >> RAMP_BITS:
        yield f'its ramp id {boundary.ramp} is over {RAMP_BITS} bits'
    if max(boundary.lower, boundary.upper) > MOST_RAMP_ELEVATION:
        yield f'its elevations {boundary.lower} and {boundary.upper} are not from 0 to {MOST_RAMP_ELEVATION}'
    if boundary.kind == 0 and (boundary.ramp or boundary.lower or boundary.upper):
        yield 'it has no ramp, and its ramp id and elevations are not 0'


def map_words(number: int, place: int, sheet: Sheet) -> str:
    if number == Cause.SIDES:
        return f'{sheet.width} by {sheet.height} cells: a side is 0 or over 1,024'
    if number == Cause.CELLS:
        return f'{sheet.width} by {sheet.height} cells are wanted, and there are {len(sheet.cells)}'
    if number == Cause.ENTRIES:
        return (f'over {MOST_ENTRIES} spans, boundaries or anchors: there are {len(sheet.spans)}, {len(sheet.boundaries)} and {len(sheet.anchors)}')
    if number == Cause.PASS:
        return f'the pass is {sheet.pass_number}, not 1, 2 or 3'
    if number == Cause.SPAN_OUTSIDE:
        return f'span {place} {ends_words(sheet.spans[place])}: {off_map_words(sheet)}'
    if number == Cause.SPAN_OF_NO_LENGTH:
        return f'span {place} {ends_words(sheet.spans[place])}: its endpoints are equal'
    if number == Cause.BOUNDARY:
        boundary = sheet.boundaries[place]
        return f'boundary {place} {ends_words(boundary.span)}: {"; ".join(boundary_faults(sheet, boundary))}'
    if number == Cause.ANCHOR_OUTSIDE:
        return f'anchor {place} at cell {sheet.anchors[place].x} {sheet.anchors[place].y} lies off the map of {sheet.width} by {sheet.height} cells'
    if number == Cause.ELEVATION:
        row, column = divmod(place, sheet.width)
        return f'cell {place}, column {column} of row {row}, is walkable and of elevation {sheet.cells[place] // 4}, over {MOST_ELEVATION}'
    if number == Cause.LISTS:
        return lists_words(place, sheet)
    return WORDS[number]


def lists_words(place: int, sheet: Sheet) -> str:
    """of refusal 16: which list ends there, or how the two entries differ"""
    spans, boundaries = sheet.spans, sheet.boundaries
    if place >= min(len(spans), len(boundaries)):
        return f'there are {len(spans)} spans and {len(boundaries)} boundaries, and they must be one list'
    return f'span {place} goes {ends_words(spans[place])}, and boundary {place} {ends_words(boundaries[place].span)}: they must be one list, endpoints as written'


def desk_words(place: int, spans: Sequence[Span], boundaries: Sequence[Boundary]) -> str:
    """of refusal 20"""
    if place >= len(boundaries):
        return f'there is no boundary for shared span {place} {ends_words(spans[place])}'
    if place >= len(spans):
        return f'there is no shared span for boundary {place} {ends_words(boundaries[place].span)}'
    return f'boundary {place} {ends_words(boundaries[place].span)} is not shared span {place} {ends_words(spans[place])}'


def explained(refusal: Refusal, data: bytes = b'', sheet: Sheet | None = None) -> Refusal:
    """the same refusal in words about these bytes, or about the map that was read from them"""
    if refusal.number == Cause.SHEET:
        return Refusal(refusal.number, refusal.place, sheet_words(data, refusal.place))
    if sheet is not None and refusal.number in WORDS:
        return Refusal(refusal.number, refusal.place, map_words(refusal.number, refusal.place, sheet))
    opened = opening(data)
    if refusal.number == Cause.SIDES and opened:
        return Refusal(refusal.number, refusal.place, f'{opened[2]} by {opened[3]} cells: a side is 0 or over 1,024')
    return refusal


# ---- a sheet that is not converted

def other_span(sheet: Sheet) -> str:
    """the first span that is not its boundary's line as written, or that only one of the two is there; nothing where there is none"""
    for place, (span, boundary) in enumerate(itertools.zip_longest(sheet.spans, sheet.boundaries)):
        if span is None or boundary is None:
            return f'there are {len(sheet.spans)} spans and {len(sheet.boundaries)} boundaries'
        if span != boundary.span:
            return f'span {place} goes {ends_words(span)}, and boundary {place} {ends_words(boundary.span)}'
    return ''


def explained_conversion(refusal: Refusal, data: bytes) -> Refusal:
    """the same refusal of the converter in words about these bytes"""
    kind = next(numbers_of(data), (0, None, ''))[1]
    if refusal.number == Cause.SHEET and kind not in (None, OLD_KIND):
        return Refusal(refusal.number, refusal.place, f'the sheet is of kind {kind}, and only kind {OLD_KIND} is converted')
    if refusal.number in (Cause.SHEET, Cause.SIDES, Cause.ENTRIES):
        return explained(refusal, data)
    sheet = read_sheet(data)
    if refusal.number == Cause.TWO_LISTS:
        return Refusal(refusal.number, refusal.place, f'{WORDS[refusal.number]}: {other_span(sheet)}')
    return explained(refusal, sheet=sheet)
