"""The rendering in Python: the same answers as the library's, for where nothing is built. It is tested, and not proved.

`reference` is written from the papers and the Rust alone, apart from the definitions and the proved code, and is what these are compared with (compare/).
"""
from __future__ import annotations

from collections.abc import Sequence

from ..dominance import Dominance, Share
from ..kept import Kept, Region, Row
from ..partition import Pair, Partition, Tally
from ..refusal import Refusal
from ..sheet import Boundary, Point, Sheet, Span, flat
from . import reference, sheet_bytes
from .hypotenuse import double


def map_of(sheet: Sheet) -> reference.Map:
    return reference.Map(sheet.pass_number, sheet.width, sheet.height, list(sheet.cells), flat(sheet.spans), flat(sheet.boundaries), flat(sheet.anchors))


def sheet_of(m: reference.Map) -> Sheet:
    return Sheet(m.pass_number, m.width, m.height, bytes(m.cells), tuple(map(Span.of_numbers, reference.groups(m.spans, 4))),
                 tuple(map(Boundary.of_numbers, reference.groups(m.boundaries, 9))), tuple(Point(*two) for two in reference.groups(m.anchors, 2)))


def read_sheet(data: bytes) -> Sheet:
    """as `jenwyllt.read_sheet`"""
    try:
        return sheet_of(sheet_bytes.read(data))
    except sheet_bytes.Refused as refused:
        raise Refusal(refused.number, refused.place) from None


def region_of(record: tuple) -> Region:
    cells, *edges, ramps, elevations, counts = record
    return Region(cells, *map(double, edges), ramps, elevations, tuple(counts))


def kept_boundaries(sheet: Sheet, records: int | None = None, pair_rows: int | None = None) -> Kept:
    """as `jenwyllt.kept_boundaries`"""
    m = map_of(sheet)
    lent = reference.lend(m)
    refused = reference.early_refusal(m, lent, True)
    if refused:
        raise Refusal(*refused)
    found = reference.results(m)
    if records is not None and found['regions'] > records:
        raise Refusal(11)
    if pair_rows is not None and len(found['pairs']) > pair_rows:
        raise Refusal(12)
    rows = [Row(number, Point(*ends[:2]), Point(*ends[2:])) for number, *ends in found['rows']]
    cut = Partition(found['regions'], found['labels'], [Tally(*each) for each in found['tallies']], [Pair(*each) for each in found['pairs']])
    return Kept(rows, len(sheet.boundaries), cut, [region_of(record) for record in found['records']])


def dominance(cells: int, counts: Sequence[int]) -> Dominance:
    """as `jenwyllt.dominance`"""
    elevation, share = reference.dominance(reference.RegionStats(cells=cells, elevation_counts=list(counts)))
    return Dominance(elevation, share and Share(*share))
