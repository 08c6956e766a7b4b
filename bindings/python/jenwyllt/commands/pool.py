"""`jenwyllt pool`: the maps in the tournament pool on a day."""
from __future__ import annotations

import argparse

from .. import accession_text, pool_text
from ..pool import maps_of_day
from ..refusal import Cause, Refusal
from ..sheet_text import Wrong
from . import _streams
from .keptlist import as_json, refuse
from .line import text

NAME = 'pool'
HELP = 'list the maps in the pool on a day, each with its newest accession record of that day or earlier'
EXAMPLE = '''
jenwyllt pool examples/pool.terms examples/pool.records 2031-05-07
jenwyllt pool --json examples/pool.terms examples/pool.records 2031-06-01
'''


def add_arguments(parser: argparse.ArgumentParser) -> None:
    parser.description = f'{HELP[:1].upper()}{HELP[1:]}.\n\n{pool_text.FORMAT}\n\n{accession_text.FORMAT}\nA record\'s day is a number, that of 2000-01-01 is 0.'
    parser.add_argument('terms', metavar='TERMS', help='the terms as text, a line each; - for standard input')
    parser.add_argument('records', metavar='RECORDS', help='the accession records as text, a line each; - for standard input')
    parser.add_argument('date', metavar='DATE', help='the day asked for, as 2031-05-07')
    parser.add_argument('--json', action='store_true', help='print the entries as a line of JSON')


def explained(args: argparse.Namespace, refusal: Refusal, terms, term_lines, records, record_lines) -> tuple[str | None, Refusal]:
    """the file at fault, or none where it is the day asked for, and the refusal with its line and cause in words"""
    place = refusal.place
    if refusal.number == Cause.ACCESSION:
        name, words = args.records, f'line {record_lines[place]}: record {records[place].own}: {accession_text.broken_words(records, place)}'
    elif refusal.number in (Cause.DATE, Cause.TERM) and place < len(terms):
        name, words = args.terms, f'line {term_lines[place]}: {pool_text.fault_words(terms, term_lines, place)}'
    else:
        name, words = None, f'{args.date} is no day from 2000-01-01 to 2099-12-31'
    return name, Refusal(refusal.number, place, words)


def refused(args: argparse.Namespace, name: str | None, wrong: Refusal) -> int:
    """a refusal of the day asked for stands behind no file"""
    if name is None and not args.json:
        raise _streams.Refused(str(wrong))
    return refuse(args.date if name is None else name, wrong, True, args.json)


def run(args: argparse.Namespace) -> int:
    asked = pool_text.date_in(args.date)
    if asked is None:
        raise _streams.Failed(f'{args.date!r} is no date as 2031-05-07')
    if args.terms == args.records == '-':
        raise _streams.Failed('terms and records cannot both be read from standard input')
    name = args.terms
    try:
        terms, term_lines = pool_text.terms_of(text(name))
        name = args.records
        records, record_lines = accession_text.records_of(text(name))
    except Wrong as wrong:
        return refuse(name, wrong, True, args.json)
    try:
        entries = maps_of_day(terms, records, asked)
    except Refusal as refusal:
        return refused(args, *explained(args, refusal, terms, term_lines, records, record_lines))
    if args.json:
        listed = [{'map': entry.map, 'record': entry.record and entry.record._asdict()} for entry in entries]
        _streams.write('-', as_json(args.terms, True, {'date': args.date, 'maps': listed}))
    for entry in [] if args.json else entries:
        record = entry.record
        said = f'record {record.own} of {pool_text.of_number(record.day)}' if record else 'no record'
        behind = f', superseding {record.superseded}' if record and record.superseded else ''
        _streams.write('-', f'{entry.map} {said}{behind}\n')
    if not entries and not args.json:
        _streams.said(f'{args.date}: no map is in the pool')
    return 0
