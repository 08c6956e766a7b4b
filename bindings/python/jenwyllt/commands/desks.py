"""`jenwyllt desks`: what two desks keep over one partition, each with its own pass, boundaries and anchors."""
from __future__ import annotations

import argparse
import json
from typing import Any

from .._library import NotBuilt, library
from ..desks import Desk, two_desks
from ..explained import desk_words, explained
from ..kept import Row
from ..refusal import Cause, Refusal
from ..sheet import Sheet
from ..sheet_text import Wrong
from . import _maps, _streams
from ._answers import PROVED

NAME = 'desks'
HELP = 'print the boundaries that two desks keep over one partition'
EXAMPLE = '''
jenwyllt desks terrain.sheet route.sheet coaching.sheet
jenwyllt desks --coaching-first --json terrain.txt route.txt coaching.txt
'''
DESKS = ('route', 'coaching')


def add_arguments(parser: argparse.ArgumentParser) -> None:
    parser.add_argument('shared', metavar='SHARED', help=f'sides, cells and spans for both: {_maps.MAP}; its pass, boundaries and anchors are not looked at')
    for name in DESKS:
        parser.add_argument(name, metavar=name.upper(), help=f"the {name} desk's pass, boundaries and anchors: {_maps.MAP} of the same sides and cells; its spans are not looked at")
    parser.add_argument('--coaching-first', action='store_true', help='run the coaching desk first, not the route desk; the answers are the same')
    parser.add_argument('--json', action='store_true', help='print a line of JSON')


def read(name: str) -> Sheet:
    """the map; a refusal names the file"""
    try:
        return _maps.read(PROVED, _maps.sheet_data(name))
    except (Refusal, Wrong) as wrong:
        raise _maps.refused(name, wrong) from wrong


def same_ground(shared: Sheet, desk: Sheet, name: str) -> None:
    if (desk.width, desk.height) != (shared.width, shared.height):
        raise _streams.Failed(f'{_streams.shown(name)}: {desk.width} by {desk.height} cells, but the shared map has {shared.width} by {shared.height}')
    if desk.cells != shared.cells:
        place = next(i for i, (own, other) in enumerate(zip(desk.cells, shared.cells, strict=True)) if own != other)
        raise _streams.Failed(f'{_streams.shown(name)}: cell {place} is {desk.cells[place]}, but {shared.cells[place]} in the shared map')


def in_words(refusal: Refusal, shared: Sheet, desk: Sheet) -> Refusal:
    """a desk's own refusal in words about its map"""
    if refusal.number == Cause.DESK:
        return Refusal(refusal.number, refusal.place, desk_words(refusal.place, shared.spans, desk.boundaries))
    return explained(refusal, sheet=desk)


def as_json(said: list[Row] | Refusal, boundaries: int) -> dict[str, Any]:
    if isinstance(said, Refusal):
        return {'refused': {'number': said.number, 'place': said.place, 'words': said.words}}
    return {'boundaries': boundaries, 'kept': [{'number': row.number, 'from': row.start, 'to': row.end} for row in said]}


def printed(name: str, rows: list[Row], boundaries: int) -> str:
    return f'{name}:\nkept {len(rows)} of {boundaries}\n' + ''.join(f'{row.number} {" ".join(map(str, (*row.start, *row.end)))}\n' for row in rows)


def run(args: argparse.Namespace) -> int:
    try:
        library()
    except NotBuilt as wrong:
        raise _streams.Failed(str(wrong)) from wrong
    files = [args.shared, args.route, args.coaching]
    if files.count('-') > 1:
        raise _streams.Failed('standard input can be one map only')
    shared, *desks = (read(name) for name in files)
    for name, desk in zip(files[1:], desks, strict=True):
        same_ground(shared, desk, name)
    try:
        found = two_desks(shared.width, shared.height, shared.cells, shared.spans, *map(Desk.of, desks), coaching_first=args.coaching_first)
    except Refusal as refusal:
        raise _maps.refused(args.shared, explained(refusal, sheet=shared)) from refusal
    answers = [in_words(said, shared, desk) if isinstance(said, Refusal) else said for said, desk in zip((found.route, found.coaching), desks, strict=True)]
    if args.json:
        _streams.write('-', json.dumps({name: as_json(said, len(desk.boundaries)) for name, said, desk in zip(DESKS, answers, desks, strict=True)}) + '\n')
    else:
        _streams.write('-', ''.join(printed(name, said, len(desk.boundaries)) for name, said, desk in zip(DESKS, answers, desks, strict=True)
                                    if not isinstance(said, Refusal)))
        for file, said in zip(files[1:], answers, strict=True):
            if isinstance(said, Refusal):
                _streams.said(_maps.refused(file, said))
    return int(any(isinstance(said, Refusal) for said in answers))
