"""`jenwyllt draw`: a picture of a map and its kept boundaries."""
from __future__ import annotations

import argparse

from ..drawing import Picture
from ..kept_list import UNPROVED, WrongList, read_kept
from ..refusal import Refusal
from ..sheet_text import Wrong
from . import _maps, _streams
from ._answers import add_unproved, chosen

NAME = 'draw'
HELP = 'make a picture (SVG) of a map and its kept boundaries'
EXAMPLE = '''
jenwyllt draw examples/mouths.txt -o mouths.svg
jenwyllt draw examples/mouths.sheet examples/mouths.kept -o mouths.svg
'''


def add_arguments(parser: argparse.ArgumentParser) -> None:
    parser.add_argument('map', nargs='?', default='-', metavar='MAP', help=_maps.MAP_HELP)
    parser.add_argument('kept', nargs='?', metavar='KEPT', help='the kept list that is drawn, as keptlist prints it; without it that of the map is worked out')
    parser.add_argument('-o', '--output', default='-', metavar='PICTURE', help='without it standard output')
    parser.add_argument('--title', help='without it the pass and how many boundaries are kept')
    add_unproved(parser)


def run(args: argparse.Namespace) -> int:
    answers = chosen(args)
    try:
        sheet = _maps.read(answers, _maps.sheet_data(args.map))
        answer = _maps.kept(answers, sheet)
    except (Refusal, Wrong) as wrong:
        raise _maps.refused(args.map, wrong) from wrong
    numbers, proved = [row.number for row in answer.rows], answers.proved
    if args.kept is not None:
        text = _streams.read(args.kept, 'a kept list').decode('ascii', 'replace')
        try:
            numbers, proved = read_kept(text, sheet), proved and not text.endswith(UNPROVED)
        except WrongList as wrong:
            raise _streams.Refused(f'{_streams.shown(args.kept)}: {wrong}') from wrong
    _streams.write(args.output, Picture(sheet, answer.partition, numbers, args.title, proved).svg())
    return 0
