"""`jenwyllt separations`: how far the boundaries of a map are apart, and how exact that is."""
from __future__ import annotations

import argparse
from collections.abc import Sequence
from typing import Any

from ..explained import explained
from ..kept_list import UNPROVED
from ..refusal import Refusal
from ..separations import BOUND_WORDS, Separation, separations
from ..sheet import Sheet
from ..sheet_text import Wrong
from ..unproved.separations import separations as unproved_separations
from . import _maps, _streams
from ._answers import Answers, add_unproved, chosen
from .keptlist import as_json, refuse

NAME = 'separations'
HELP = f'print how far each two boundaries of a map are apart, within {BOUND_WORDS} pixel, and the exact square of the distance'
EXAMPLE = '''
jenwyllt separations examples/mouths.txt
jenwyllt separations --boundary 2 examples/mouths.sheet
jenwyllt separations --json examples/mouths.sheet
'''


def add_arguments(parser: argparse.ArgumentParser) -> None:
    parser.add_argument('map', nargs='?', default='-', metavar='MAP', help=_maps.MAP_HELP)
    parser.add_argument('--boundary', type=int, metavar='N', help='only the pairs of this boundary, by its number from 0')
    parser.add_argument('--json', action='store_true', help='print a line of JSON')
    add_unproved(parser)


def line(row: Separation) -> str:
    """both numbers, the separation in decimal and its bits in hexadecimal, the exact square; the decimal is the shortest that reads back as the same double"""
    return f'{row.smaller} {row.larger} {row.value!r} {row.bits:016x} {row.numerator}/{row.denominator}\n'


def printed(sheet: Sheet, rows: Sequence[Separation]) -> str:
    first = f'{len(rows)} separations of {len(sheet.boundaries)} boundaries in pixels, each within {BOUND_WORDS} of the root of its exact square\n'
    return first + ''.join(map(line, rows))


def listed(sheet: Sheet, rows: Sequence[Separation]) -> dict[str, Any]:
    each = [{'boundaries': [row.smaller, row.larger], 'separation': row.value, 'bits': f'{row.bits:016x}', 'square': [row.numerator, row.denominator]} for row in rows]
    return {'boundaries': len(sheet.boundaries), 'bound': BOUND_WORDS, 'separations': each}


def worked_out(args: argparse.Namespace, answers: Answers) -> tuple[Sheet, list[Separation]]:
    """the sheet and the rows that are asked for; a refusal is in words about the map"""
    sheet = _maps.read(answers, _maps.sheet_data(args.map))
    try:
        rows = (separations if answers.proved else unproved_separations)(sheet.width, sheet.height, sheet.boundaries)
    except Refusal as refusal:
        raise explained(refusal, sheet=sheet) from None
    if args.boundary is None:
        return sheet, rows
    if not 0 <= args.boundary < len(sheet.boundaries):
        raise _streams.Failed(f'--boundary {args.boundary}: the map has {len(sheet.boundaries)} boundaries, numbered from 0')
    return sheet, [row for row in rows if args.boundary in (row.smaller, row.larger)]


def run(args: argparse.Namespace) -> int:
    answers = chosen(args)
    try:
        sheet, rows = worked_out(args, answers)
    except (Refusal, Wrong) as wrong:
        return refuse(args.map, wrong, answers.proved, args.json)
    if args.json:
        _streams.write('-', as_json(args.map, answers.proved, listed(sheet, rows)))
    else:
        _streams.write('-', printed(sheet, rows) + ('' if answers.proved else UNPROVED))
    return 0
