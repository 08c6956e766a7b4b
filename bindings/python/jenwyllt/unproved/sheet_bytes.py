"""The sheet as bytes: writer, reader, converter, and what `keptlist` prints. Written from the scope paper, 'The sheet and the printed list', and from requests 3
and 12."""
from . import reference
from .reference import Lent, Map

KEPTLIST_BYTES = 65_536
KEPTLIST_CELLS = 4_096
KEPTLIST_RECORDS = 512
KEPTLIST_PAIR_ROWS = 2_048


class Refused(Exception):
    def __init__(self, number, place):
        super().__init__(number, place)
        self.number, self.place = number, place


# ---- the writer

def number_bytes(value, extra=0):
    """groups of seven bits, least first: the shortest form, or `extra` groups of zero behind it, which the reader refuses"""
    assert 0 <= value < 1 << 64
    out = []
    while True:
        out.append(value & 127)
        value >>= 7
        if value == 0:
            break
    out += [0] * extra
    return bytes([b | 128 for b in out[:-1]] + out[-1:])


def sheet_numbers(m, kind=1):
    """the numbers of a well-formed sheet in order; one of kind 3 has no spans"""
    spans = [] if kind == 3 else [len(m.spans) // 4] + list(m.spans)
    return ([kind, m.pass_number, m.width, m.height] + list(m.cells) + spans
            + [len(m.boundaries) // 9] + list(m.boundaries) + [len(m.anchors) // 2] + list(m.anchors))


def sheet_of(m, kind=1):
    return b''.join(number_bytes(n) for n in sheet_numbers(m, kind))


def endpoints_of(boundaries):
    """the boundaries as spans, as written"""
    return [n for k in range(0, len(boundaries) - 8, 9) for n in boundaries[k:k + 4]]


def write_sheet(pass_number, width, height, cells, boundaries, anchors, room):
    """the writer, which gives kind 3 only: (number, value) and the bytes, or None where it refuses"""
    if not (1 <= width <= 1024 and 1 <= height <= 1024):
        return (1, 0), None
    if len(cells) != width * height:
        return (2, 0), None
    for numbers, size in ((boundaries, 9), (anchors, 2)):
        if len(numbers) % size or len(numbers) // size > 256:
            return (3, 0), None
    data = sheet_of(Map(pass_number, width, height, cells, endpoints_of(boundaries), boundaries, anchors), 3)
    return ((10, 0), None) if len(data) > room else ((0, len(data)), data)


# ---- the reader

class Reader:
    def __init__(self, data):
        self.data, self.at = data, 0

    def number(self):
        first, value = self.at, 0
        for group in range(10):
            if self.at >= len(self.data):
                raise Refused(14, len(self.data))
            byte = self.data[self.at]
            if group == 9 and byte > 1:
                raise Refused(14, first)
            self.at += 1
            value |= (byte & 127) << (7 * group)
            if byte < 128:
                if len(number_bytes(value)) != self.at - first:          # not in the shortest form
                    raise Refused(14, first)
                return value
        raise AssertionError('the tenth byte is 0 or 1')

    def number_within(self, allowed):
        first = self.at
        value = self.number()
        if not allowed(value):
            raise Refused(14, first)
        return value

    def entries(self, size):
        count = self.number()
        if count > 256:
            raise Refused(3, 0)
        return [self.number() for _ in range(count * size)]


def read(data, most_cells=1024 * 1024):
    """a Map, or Refused"""
    r = Reader(data)
    kind = r.number_within(lambda kind: kind in (1, 3))
    pass_number = r.number()
    width = r.number()
    height = r.number()
    if not (1 <= width <= 1024 and 1 <= height <= 1024) or width * height > most_cells:
        raise Refused(1, 0)
    cells = [r.number_within(lambda cell: cell <= 255) for _ in range(width * height)]
    held = r.entries(4) if kind == 1 else []
    boundaries = r.entries(9)
    anchors = r.entries(2)
    if r.at < len(data):
        raise Refused(14, r.at)
    spans = held if kind == 1 else endpoints_of(boundaries)
    return Map(pass_number, width, height, cells, spans, boundaries, anchors)


def read_sheet(data, cells, spans, boundaries, anchors):
    """reading alone: fills the four lent lists; gives (number, place) and the map, or None where it is refused"""
    try:
        m = read(data)
    except Refused as r:
        return (r.number, r.place), None
    if len(m.cells) > len(cells) or len(m.spans) > len(spans) or len(m.boundaries) > len(boundaries) or len(m.anchors) > len(anchors):
        return (10, 0), None
    for lent, read_ones in ((cells, m.cells), (spans, m.spans), (boundaries, m.boundaries), (anchors, m.anchors)):
        reference.put(lent, read_ones)
    return (0, 0), m


def convert_sheet(data, room):
    """the converter of kind 1 to kind 3: (number, value) and the bytes, or None where it refuses"""
    try:
        if Reader(data).number() != 1:
            raise Refused(14, 0)
        m = read(data)
    except Refused as r:
        return (r.number, r.place), None
    early = reference.entry_fault(m)
    if early:
        return early, None
    if m.spans != endpoints_of(m.boundaries):
        return (22, 0), None
    made = sheet_of(m, 3)
    return ((10, 0), None) if len(made) > room else ((0, len(made)), made)


# ---- the program

def keptlist_lends():
    return Lent([0] * KEPTLIST_CELLS, [0] * KEPTLIST_CELLS, [0] * KEPTLIST_CELLS, [0] * 512, [0] * (3 * KEPTLIST_PAIR_ROWS),
                [reference.EMPTY_RECORD] * KEPTLIST_RECORDS, [0] * (5 * 256))


def keptlist(data, notes=None):
    """what the program prints"""
    if len(data) > KEPTLIST_BYTES:
        return f'refused 14 at {KEPTLIST_BYTES}\n'
    try:
        m = read(data, KEPTLIST_CELLS)
    except Refused as r:
        return f'refused {r.number} at {r.place}\n'
    lent = keptlist_lends()
    number, value = reference.call(m, lent, notes=notes)
    if number:
        return f'refused {number} at {value}\n'
    rows = reference.groups(lent.output[:5 * value], 5)
    return f'kept {value} of {len(m.boundaries) // 9}\n' + ''.join(' '.join(map(str, row)) + '\n' for row in rows)
