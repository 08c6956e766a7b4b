"""`jenwyllt rest`: the passes run to rest, and what each round removed."""
from __future__ import annotations

import argparse
import sys
from typing import Any

from ..explained import explained
from ..refusal import Refusal
from ..rest import PASSES, Rested, Round, by_turns, run_to_rest
from ..rest_drawing import RestPicture
from ..sheet import Sheet
from ..sheet_text import Wrong
from . import _maps, _streams
from ._answers import PROVED
from .keptlist import as_json, refuse, row_json

NAME = 'rest'
HELP = 'run passes 1, 2 and 3 by turns until a round removes none, and print what is kept and what each round removed'
EXAMPLE = '''
jenwyllt rest examples/mouths.txt --draw rest.svg
jenwyllt rest --json examples/case_j.sheet
'''


def add_arguments(parser: argparse.ArgumentParser) -> None:
    parser.description = (f'{HELP[:1].upper()}{HELP[1:]}.\n\nThe pass that the map names is not looked at. Its spans and boundaries must be one list, endpoints as '
                          'written;\na map without span lines has them so. Each pass is partitioned by the boundaries still kept.')
    parser.add_argument('map', nargs='?', default='-', metavar='MAP', help=_maps.MAP_HELP)
    parser.add_argument('--json', action='store_true', help='print a line of JSON')
    parser.add_argument('--draw', metavar='PICTURE', help='also write a picture (SVG) that marks each removed boundary by the round in which it went')


class Progress:
    """a line on a terminal that says how far the calls by turns have come, once there are rounds enough to wait for"""

    def __init__(self) -> None:
        self.shown = False

    def __call__(self, rounds: int, kept: int) -> None:
        if rounds > 1 and sys.stderr.isatty():
            self.shown = True
            print(f'\rjenwyllt: round {rounds}, {kept} boundaries kept ', end='', file=sys.stderr, flush=True)

    def end(self) -> None:
        if self.shown:
            print(file=sys.stderr, flush=True)


def worked_out(name: str) -> tuple[Sheet, Rested, list[Round]]:
    """the run, and its rounds by calls of the passes by turns, which must leave the same rows; a refusal is in words about the map"""
    sheet = _maps.read(PROVED, _maps.sheet_data(name))
    try:
        rested = run_to_rest(sheet)
    except Refusal as refusal:
        raise explained(refusal, sheet=sheet) from None
    progress = Progress()
    rounds, rows = by_turns(sheet, progress)
    progress.end()
    if (rows, len(rounds)) != (rested.rows, rested.rounds):
        raise _streams.Failed(f'{_streams.shown(name)}: the passes called by turns leave {len(rows)} rows in {len(rounds)} rounds, and not those of the run')
    return sheet, rested, rounds


def numbers_words(numbers: list[int]) -> str:
    return ', '.join(map(str, numbers))


def round_words(number: int, of: Round) -> str:
    each = [f'pass {pass_number} removes {numbers_words(numbers)}' for pass_number, numbers in zip(PASSES, of.removed) if numbers]
    return f'round {number}: {"; ".join(each) or "none is removed"}\n'


def printed(rested: Rested, rounds: list[Round]) -> str:
    first = f'kept {len(rested.rows)} of {rested.boundaries} in {rested.rounds} round{"s" if rested.rounds > 1 else ""}\n'
    rows = ''.join(f'{row.number} {" ".join(map(str, (*row.start, *row.end)))}\n' for row in rested.rows)
    return first + ''.join(round_words(k, each) for k, each in enumerate(rounds, 1)) + rows


def rest_json(rested: Rested, rounds: list[Round]) -> dict[str, Any]:
    return {'boundaries': rested.boundaries, 'kept': [row_json(row) for row in rested.rows],
            'rounds': [{f'pass {pass_number}': numbers for pass_number, numbers in zip(PASSES, each.removed)} for each in rounds]}


def run(args: argparse.Namespace) -> int:
    try:
        sheet, rested, rounds = worked_out(args.map)
    except (Refusal, Wrong) as wrong:
        return refuse(args.map, wrong, True, args.json)
    _streams.write('-', as_json(args.map, True, rest_json(rested, rounds)) if args.json else printed(rested, rounds))
    if args.draw:
        _streams.write(args.draw, RestPicture(sheet, rested, rounds).svg())
    return 0
