"""`jenwyllt sheet`: sheets from text, and as text; and old sheets made new."""
from __future__ import annotations

import argparse
import math
from typing import Any

from .. import sheet_text
from ..explained import explained_conversion, other_span
from ..kept_list import UNPROVED
from ..refusal import Refusal
from ..new_sheet import convert_sheet, write_sheet
from ..sheet import KIND, OLD_KIND, Boundary, Sheet
from ..sheet_text import Wrong
from . import _maps, _streams
from ._answers import add_unproved, chosen
from .keptlist import as_json, refuse

NAME = 'sheet'
HELP = 'write a sheet from a text that a person can read and draw, print a sheet as that text, or convert an old sheet'
EXAMPLE = '''
jenwyllt sheet write examples/mouths.txt -o mouths.sheet
jenwyllt sheet print mouths.sheet
jenwyllt sheet convert examples/case_j.sheet -o case_j.new
'''

WAYS = (
    ('write', f'write a sheet of kind {KIND} from a text, whose boundaries are its spans', 'TEXT', 'SHEET'),
    ('print', 'print a sheet as text', 'SHEET', 'TEXT'),
    ('convert', f'convert a sheet of kind {OLD_KIND}, whose spans are the lines of its boundaries, to kind {KIND}', 'SHEET', 'SHEET'))


def add_arguments(parser: argparse.ArgumentParser) -> None:
    parser.description = f'{HELP[:1].upper()}{HELP[1:]}.\n\n{sheet_text.FORMAT}'
    ways = parser.add_subparsers(metavar='write|print|convert', required=True, dest='way')
    for example, (way, does, wanted, made) in zip(EXAMPLE.strip().splitlines(), WAYS):
        each = ways.add_parser(way, help=does, description=f'{does[:1].upper()}{does[1:]}.', formatter_class=argparse.RawDescriptionHelpFormatter,
                               epilog=f'Example:\n  {example}')
        each.add_argument('input', nargs='?', default='-', metavar=wanted, help='without it, or with -, standard input')
        each.add_argument('-o', '--output', default='-', metavar=made, help='without it standard output')
        if way == 'print':
            each.add_argument('--json', action='store_true', help='print what the sheet holds as a line of JSON')
            add_unproved(each)


def sheet_json(sheet: Sheet) -> dict[str, Any]:
    """a width that is no number of JSON as the bits of a double"""
    def boundary(each: Boundary) -> dict[str, Any]:
        width: float | str = each.width if math.isfinite(each.width) else f'{each.width_bits:#018x}'
        return {'from': each.start, 'to': each.end, 'width': width, 'kind': int(each.kind), 'ramp': each.ramp, 'lower': each.lower, 'upper': each.upper}
    return {'pass': sheet.pass_number, 'width': sheet.width, 'height': sheet.height, 'cells': list(sheet.cells),
            'spans': [{'from': span.start, 'to': span.end} for span in sheet.spans], 'boundaries': [boundary(each) for each in sheet.boundaries],
            'anchors': sheet.anchors}


def write(args: argparse.Namespace) -> int:
    try:
        sheet = _maps.text_sheet(_streams.read(args.input, 'the text of a sheet'))
        other = other_span(sheet)
        if other:
            raise _streams.Refused(f'{_streams.shown(args.input)}: a sheet of kind {KIND} holds no spans but the lines of its boundaries: {other}')
        made = write_sheet(sheet)
    except (Wrong, Refusal) as wrong:
        raise _maps.refused(args.input, wrong) from wrong
    _streams.write(args.output, made)
    return 0


def convert(args: argparse.Namespace) -> int:
    data = _streams.read(args.input, 'a sheet')
    try:
        made = convert_sheet(data)
    except Refusal as refusal:
        raise _maps.refused(args.input, explained_conversion(refusal, data)) from refusal
    _streams.write(args.output, made)
    return 0


def show(args: argparse.Namespace) -> int:
    answers = chosen(args)
    try:
        sheet = _maps.read(answers, _streams.read(args.input, 'a sheet'))
    except Refusal as refusal:
        return refuse(args.input, refusal, answers.proved, args.json)
    if args.json:
        text = as_json(args.input, answers.proved, sheet_json(sheet))
    else:
        text = ('' if answers.proved else f'; {UNPROVED}') + sheet_text.text_of(sheet)
    _streams.write(args.output, text)
    return 0


def run(args: argparse.Namespace) -> int:
    return {'write': write, 'print': show, 'convert': convert}[args.way](args)
