"""`jenwyllt result`: what a run of a map found, stored as a result sheet, printed, and checked by running the map again."""
from __future__ import annotations

import argparse
from typing import Any

from ..refusal import Refusal
from ..result_text import ENTRIES, explained, first_difference, found, printed
from ..results import RunResult, read_result, write_result
from ..sheet import grouped
from ..sheet_text import Wrong
from . import _maps, _streams
from ._answers import PROVED
from .keptlist import as_json, refuse

NAME = 'result'
HELP = "store what a run of a map's pass finds, print what is stored, or check it by running the map"
EXAMPLE = '''
jenwyllt result examples/mouths.txt -o mouths.result
jenwyllt result --print mouths.result
jenwyllt result --check examples/mouths.sheet mouths.result
'''
USAGE = '''jenwyllt result [MAP] [-o RESULT]
       jenwyllt result --print [--json] [RESULT]
       jenwyllt result --check [--json] MAP RESULT'''
RESULT = 'a result'


def add_arguments(parser: argparse.ArgumentParser) -> None:
    parser.usage = USAGE
    parser.add_argument('files', nargs='*', metavar='FILE', help=f'MAP, {_maps.MAP}, or RESULT, a result sheet; - for standard input, and without a file too')
    parser.add_argument('-o', '--output', metavar='RESULT', help='the file that the result is stored in; without it standard output')
    way = parser.add_mutually_exclusive_group()
    way.add_argument('--print', action='store_true', help='print a result: its counts, labels, and each span, pair row and kept row')
    way.add_argument('--check', action='store_true', help='run the map and compare entry by entry; where the two differ, a line says where first, and the exit status is 1')
    parser.add_argument('--json', action='store_true', help='with --print or --check, print a line of JSON')


def run_of(name: str) -> RunResult:
    """what the pass of a map finds"""
    return found(_maps.kept(PROVED, _maps.read(PROVED, _maps.sheet_data(name))))


def stored(name: str) -> RunResult:
    """a result that was read; a refusal is in words about its bytes"""
    data = _streams.read(name, RESULT)
    try:
        return read_result(data)
    except Refusal as refusal:
        raise explained(refusal, data) from None


def entries_json(of: RunResult) -> dict[str, Any]:
    tallies, pairs, rows = ([list(entry) for entry in grouped(each, size)] for (_, size, _), each in list(zip(ENTRIES, of[1:]))[1:])
    return {'regions': of.regions, 'labels': list(of.labels), 'tallies': tallies, 'pairs': pairs, 'rows': rows}


def store(args: argparse.Namespace, name: str) -> int:
    try:
        run = run_of(name)
    except (Refusal, Wrong) as wrong:
        raise _maps.refused(name, wrong) from wrong
    _streams.write(args.output or '-', write_result(*run))
    return 0


def show(args: argparse.Namespace, name: str) -> int:
    try:
        of = stored(name)
    except Refusal as refusal:
        return refuse(name, refusal, True, args.json)
    _streams.write('-', as_json(name, True, entries_json(of)) if args.json else printed(of))
    return 0


def check(args: argparse.Namespace, sheet: str, result: str) -> int:
    name = sheet
    try:
        run = run_of(sheet)
        name = result
        of = stored(result)
    except (Refusal, Wrong) as wrong:
        return refuse(name, wrong, True, args.json)
    difference = first_difference(of, run)
    if args.json:
        _streams.write('-', as_json(result, True, {'same': difference is None, 'difference': difference}))
    elif difference is None:
        _streams.write('-', f'{_streams.shown(result)} is what the run of {_streams.shown(sheet)} finds\n')
    else:
        raise _streams.Refused(f'{_streams.shown(result)}: {difference}')
    return 0 if difference is None else 1


def run(args: argparse.Namespace) -> int:
    files, most = args.files, 2 if args.check else 1
    if len(files) > most or args.check and len(files) < most:
        raise _streams.Failed('--check takes a map and a result' if args.check else f'one file is taken, not {len(files)}')
    if (args.print or args.check) and args.output is not None:
        raise _streams.Failed('-o is for a result that is stored: --print and --check write to standard output')
    if args.json and not (args.print or args.check):
        raise _streams.Failed('--json goes with --print or --check')
    if args.check:
        if files[0] == files[1] == '-':
            raise _streams.Failed('map and result cannot both be read from standard input')
        return check(args, *files)
    return (show if args.print else store)(args, files[0] if files else '-')
