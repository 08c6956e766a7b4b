"""`jenwyllt page`: a map to look at, as one HTML file."""
from __future__ import annotations

import argparse

from ..explained import explained
from ..page import page
from ..refusal import Refusal
from ..sheet_text import Wrong
from . import _maps, _streams
from ._answers import PROVED

NAME = 'page'
HELP = 'make a page (HTML) to look at: terrain, regions, boundaries, why each went, the rounds of running to rest, and the game'
EXAMPLE = '''
jenwyllt page examples/case_j.txt -o case_j.html
'''


def add_arguments(parser: argparse.ArgumentParser) -> None:
    parser.add_argument('map', nargs='?', default='-', metavar='MAP', help=_maps.MAP_HELP)
    parser.add_argument('-o', '--output', default='-', metavar='PAGE', help='without it standard output')
    parser.add_argument('--title', help="without it the map's name and pass")


def made(name: str, title: str | None) -> str:
    """the page; a refusal is in words about the map"""
    sheet = _maps.read(PROVED, _maps.sheet_data(name))
    try:
        return page(sheet, title or f'{_streams.shown(name)}, pass {sheet.pass_number}')
    except Refusal as refusal:
        raise explained(refusal, sheet=sheet) from None


def run(args: argparse.Namespace) -> int:
    try:
        text = made(args.map, args.title)
    except (Refusal, Wrong) as wrong:
        raise _maps.refused(args.map, wrong) from wrong
    _streams.write(args.output, text)
    return 0
