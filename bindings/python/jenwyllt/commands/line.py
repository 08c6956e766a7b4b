"""`jenwyllt line`: the line of an accession record."""
from __future__ import annotations

import argparse

from .. import accession_text
from ..accession import Accession, report_line
from ..refusal import Cause, Refusal
from ..sheet_text import Wrong
from . import _streams
from .keptlist import as_json, refuse

NAME = 'line'
HELP = 'print every accession record of the map of an own number, newest first'
EXAMPLE = '''
jenwyllt line examples/accessions.records 4
jenwyllt line --json examples/accessions.records 10
'''


def add_arguments(parser: argparse.ArgumentParser) -> None:
    parser.description = f'{HELP[:1].upper()}{HELP[1:]}.\n\n{accession_text.FORMAT}'
    parser.add_argument('records', metavar='RECORDS', help='the records as text, a line each; - for standard input')
    parser.add_argument('own', metavar='OWN', help='an own number')
    parser.add_argument('--json', action='store_true', help='print the line as a line of JSON')


def text(name: str) -> str:
    data = _streams.read(name, 'accession records')
    try:
        return data.decode()
    except UnicodeDecodeError as wrong:
        raise Wrong(data.count(b'\n', 0, wrong.start) + 1, f'byte {data[wrong.start]:#04x} is no text in UTF-8') from wrong


def number(word: str) -> int:
    if not (word.isascii() and word.isdecimal() and int(word) <= accession_text.MOST):
        raise _streams.Failed(f'{word!r} is no own number: a whole number from 0 to {accession_text.MOST:,}')
    return int(word)


def explained(refusal: Refusal, records: list[Accession], lines: list[int]) -> Refusal:
    """with the line of the record, and the rule that it breaks, in words"""
    if refusal.number != Cause.ACCESSION:
        return refusal
    place = refusal.place
    return Refusal(refusal.number, place, f'line {lines[place]}: record {records[place].own}: {accession_text.broken_words(records, place)}')


def run(args: argparse.Namespace) -> int:
    own = number(args.own)
    try:
        records, lines = accession_text.records_of(text(args.records))
    except Wrong as wrong:
        return refuse(args.records, wrong, True, args.json)
    try:
        line = report_line(records, own)
    except Refusal as refusal:
        return refuse(args.records, explained(refusal, records, lines), True, args.json)
    if args.json:
        _streams.write('-', as_json(args.records, True, {'own': own, 'line': [record._asdict() for record in line]}))
    elif line:
        _streams.write('-', accession_text.text_of(line))
    else:
        _streams.said(f'{_streams.shown(args.records)}: no record has the own number {own}')
    return 0
