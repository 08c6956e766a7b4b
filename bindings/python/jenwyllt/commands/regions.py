"""`jenwyllt regions`: the regions into which the spans cut a map, with the share of each one's most common elevation."""
from __future__ import annotations

import argparse
from collections.abc import Iterator
from dataclasses import replace
from typing import Any

from ..dominance import Dominance
from ..explained import ends_words
from ..kept import Kept, Region
from ..kept_list import UNPROVED
from ..refusal import Refusal
from ..sheet import Sheet
from ..sheet_text import Wrong
from . import _maps, _streams
from ._answers import add_unproved, chosen
from .keptlist import as_json, refuse

NAME = 'regions'
HELP = 'print the regions into which the spans cut a map, and what each span parts'
EXAMPLE = '''
jenwyllt regions examples/mouths.txt --labels
jenwyllt regions --json examples/mouths.sheet
'''


def add_arguments(parser: argparse.ArgumentParser) -> None:
    parser.add_argument('map', nargs='?', default='-', metavar='MAP', help=_maps.MAP_HELP)
    parser.add_argument('--labels', action='store_true', help="also print each cell's region, row by row, 0 where a cell is blocked")
    parser.add_argument('--json', action='store_true', help='print a line of JSON, with the labels')
    add_unproved(parser)


def counted(count: int, word: str) -> str:
    return f'{count} {word}{"" if count == 1 else "s"}'


def dominance_words(of: Dominance) -> str:
    """every region of a map has cells, and so a share"""
    return f'elevation {of.elevation} has ' + ('no share' if of.share is None else f'{of.share.percent} percent, remainder {of.share.remainder}')


def region_line(label: int, region: Region, of: Dominance) -> str:
    edges = ' '.join(f'{edge:.0f}' for edge in (region.min_x, region.min_y)), ' '.join(f'{edge:.0f}' for edge in (region.max_x, region.max_y))
    elevations = ', '.join(f'{count} of elevation {e}' for e, count in enumerate(region.elevation_counts) if count)
    ramps = f', {counted(region.ramp_cells, "ramp cell")}' if region.ramp_cells else ''
    return f'region {label} from {edges[0]} to {edges[1]}: {counted(region.cells, "cell")}, {elevations}{ramps}; {dominance_words(of)}'


def lines(sheet: Sheet, cut: Kept, shares: list[Dominance], labels: bool) -> Iterator[str]:
    yield counted(cut.partition.regions, 'region')
    for label, (region, of) in enumerate(zip(cut.records, shares), 1):
        yield region_line(label, region, of)
    for k, (span, tally) in enumerate(zip(sheet.spans, cut.partition.tallies)):
        pairs = ', '.join(f'{pair.smaller} and {pair.larger}' for pair in cut.partition.pairs if pair.span == k)
        yield f'span {k} {ends_words(span)}: {counted(tally.removed, "step")} removed, {tally.separated} between regions{" " + pairs if pairs else ""}'
    if labels:
        wide = len(str(cut.partition.regions))
        for k in range(0, len(sheet.cells), sheet.width):
            yield ' '.join(f'{label:{wide}}' for label in cut.partition.labels[k:k + sheet.width])


def dominance_json(of: Dominance) -> dict[str, Any]:
    return {'elevation': of.elevation, 'share': of.share and of.share._asdict()}


def cut_json(cut: Kept, shares: list[Dominance]) -> dict[str, Any]:
    of = cut.partition
    return {'regions': [{**region.values(), 'dominance': dominance_json(share)} for region, share in zip(cut.records, shares)], 'labels': of.labels,
            'tallies': [tally._asdict() for tally in of.tallies], 'pairs': [pair._asdict() for pair in of.pairs]}


def run(args: argparse.Namespace) -> int:
    answers = chosen(args)
    try:
        sheet = _maps.read(answers, _maps.sheet_data(args.map))
        # Regions depend on cells and spans alone, and without boundaries any pass gives them.
        cut = _maps.kept(answers, replace(sheet, pass_number=1, boundaries=(), anchors=()))
    except (Refusal, Wrong) as wrong:
        return refuse(args.map, wrong, answers.proved, args.json)
    shares = [answers.dominance(region.cells, region.elevation_counts) for region in cut.records]
    if args.json:
        _streams.write('-', as_json(args.map, answers.proved, cut_json(cut, shares)))
    else:
        _streams.write('-', ''.join(f'{line}\n' for line in lines(sheet, cut, shares, args.labels)) + ('' if answers.proved else UNPROVED))
    return 0
