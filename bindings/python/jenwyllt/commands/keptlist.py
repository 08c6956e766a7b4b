"""`jenwyllt keptlist`: the boundaries that a map's pass keeps, as the program `keptlist` prints them."""
from __future__ import annotations

import argparse
import json
from typing import Any

from ..drawing import Picture
from ..kept import Kept, Row
from ..kept_list import PAIR_ROWS, RECORDS, UNPROVED, refuse_too_large
from ..refusal import Refusal
from ..sheet import Sheet
from ..sheet_text import Wrong
from . import _maps, _streams
from ._answers import Answers, add_unproved, chosen

NAME = 'keptlist'
HELP = "print the boundaries that a map's pass keeps"
EXAMPLE = '''
jenwyllt keptlist examples/mouths.txt --draw mouths.svg
jenwyllt keptlist --json examples/*.sheet
'''


def add_arguments(parser: argparse.ArgumentParser) -> None:
    parser.add_argument('files', nargs='*', metavar='MAP', help=_maps.MAP_HELP)
    parser.add_argument('--json', action='store_true', help='print a line of JSON for each map')
    parser.add_argument('--draw', metavar='PICTURE', help='also write a picture (SVG) of the map and its list')
    parser.add_argument('--large', action='store_true', help='take maps of up to 1,024 by 1,024 cells; the program keptlist has 4,096 cells at most')
    add_unproved(parser)


def answer(answers: Answers, data: bytes, large: bool) -> tuple[Sheet, Kept]:
    if large:
        sheet = _maps.read(answers, data)
        return sheet, _maps.kept(answers, sheet)
    refuse_too_large(data)
    sheet = _maps.read(answers, data)
    return sheet, _maps.kept(answers, sheet, RECORDS, PAIR_ROWS)


def as_json(name: str, proved: bool, said: dict[str, Any]) -> str:
    return json.dumps({'file': name, 'proved': proved, **said}) + '\n'


def row_json(row: Row) -> dict[str, Any]:
    return {'number': row.number, 'from': row.start, 'to': row.end}


def kept_json(kept: Kept) -> dict[str, Any]:
    return {'boundaries': kept.boundaries, 'kept': [row_json(row) for row in kept.rows]}


def refusal_json(wrong: Refusal | Wrong) -> dict[str, Any]:
    if isinstance(wrong, Wrong):
        return {'wrong': {'line': wrong.line, 'words': wrong.what}}
    return {'refused': {'number': wrong.number, 'place': wrong.place, 'words': wrong.words}}


def refuse(name: str, wrong: Refusal | Wrong, proved: bool, json_wanted: bool) -> int:
    """prints the refusal as a line of JSON and gives its status, or raises it in words"""
    if not json_wanted:
        raise _maps.refused(name, wrong) from wrong
    _streams.write('-', as_json(name, proved, refusal_json(wrong)))
    return 1


def one(name: str, args: argparse.Namespace, answers: Answers) -> int:
    """what is printed for a map, and its status"""
    try:
        sheet, kept = answer(answers, _maps.sheet_data(name), args.large)
    except (Refusal, Wrong) as wrong:
        return refuse(name, wrong, answers.proved, args.json)
    if args.json:
        _streams.write('-', as_json(name, answers.proved, kept_json(kept)))
    else:
        title = f'{_streams.shown(name)}:\n' if len(args.files) > 1 else ''
        _streams.write('-', title + kept.printed() + ('' if answers.proved else UNPROVED))
    if args.draw:
        _streams.write(args.draw, Picture(sheet, kept.partition, [row.number for row in kept.rows], proved=answers.proved).svg())
    return 0


def run(args: argparse.Namespace) -> int:
    names = args.files or ['-']
    if args.draw and len(names) > 1:
        raise _streams.Failed('--draw takes one map')
    answers, status = chosen(args), 0
    for name in names:
        try:
            status = max(status, one(name, args, answers))
        except _streams.Refused as wrong:
            _streams.said(wrong)
            status = max(status, 1)
        except _streams.Unread as wrong:
            _streams.said(wrong)
            status = 2
    return status
