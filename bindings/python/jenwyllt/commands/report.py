"""`jenwyllt report`: the year's figures, what up to 10,000 runs add up to."""
from __future__ import annotations

import argparse
import json
import sys
from collections.abc import Iterable, Iterator
from typing import Any

from ..kept_list import UNPROVED
from ..refusal import WORDS
from ..report import MOST_RUNS, PASSES, empty_report, mean_kept, report_run
from ..sheet_text import Wrong
from ..unproved.report import run_of, summed
from . import _maps, _streams
from ._answers import Answers, add_unproved, chosen

NAME = 'report'
HELP = f'add up what the runs of up to {MOST_RUNS:,} maps keep and remove, and which were refused'
EXAMPLE = '''
jenwyllt report examples/*.sheet
jenwyllt report --json --names year.txt
'''
LONG = 100                          # so many maps have a line of progress


def add_arguments(parser: argparse.ArgumentParser) -> None:
    parser.add_argument('files', nargs='*', metavar='MAP', help=_maps.MAP_HELP)
    parser.add_argument('--names', metavar='FILE', help='also the maps that this file names, one a line; - is standard input')
    parser.add_argument('--json', action='store_true', help='print a line of JSON')
    add_unproved(parser)


def named(args: argparse.Namespace) -> list[str]:
    if args.names is None:
        return args.files or ['-']
    return args.files + [name for name in _streams.read(args.names, 'names of maps').decode(errors='surrogateescape').splitlines() if name]


class Sheets:
    """the bytes of each map that can be read; `status` says how the others failed. A line of progress goes to a terminal"""

    def __init__(self, names: list[str]):
        self.names, self.status = names, 0
        self.shows = len(names) >= LONG and sys.stderr.isatty()

    def progress(self, done: int) -> None:
        if self.shows and (done % LONG == 0 or done == len(self.names)):
            print(f'\rjenwyllt: {done} of {len(self.names)} maps', end='\n' if done == len(self.names) else '', file=sys.stderr, flush=True)

    def data(self, name: str) -> bytes:
        """of a text that is wrong its bytes as they stand: they are no sheet, so that the run is refused 14"""
        data = _streams.read(name, _maps.MAP)
        try:
            return _maps.as_sheet(data)
        except Wrong as wrong:
            _streams.said(_maps.refused(name, wrong))
            self.status = max(self.status, 1)
            return data

    def __iter__(self) -> Iterator[bytes]:
        for done, name in enumerate(self.names, 1):
            try:
                yield self.data(name)
            except _streams.Unread as wrong:
                _streams.said(wrong)
                self.status = 2
            self.progress(done)


def proved(sheets: Iterable[bytes]) -> dict[str, Any]:
    """by the library, in the form of `unproved.report.summed`"""
    report, beyond = empty_report(), 0
    for data in sheets:
        beyond += report.runs >= MOST_RUNS
        report = report_run(report, data).report
    passes = {}
    for number in PASSES:
        figures, mean = report.of_pass(number), mean_kept(report, number)
        passes[number] = {'accepted': figures.accepted, 'boundaries': figures.boundaries, 'kept': figures.kept, 'removed': figures.removed,
                          'mean': mean and list(mean)}
    return {'runs': report.runs, 'refused': report.refusals(), 'passes': passes, 'squared': report.squared, 'beyond': beyond}


def mean_words(figures: dict[str, Any]) -> str:
    if figures['mean'] is None:
        return '-'
    quotient, remainder = figures['mean']
    return f'{quotient:,} {remainder:,}/{figures["accepted"]:,}' if remainder else f'{quotient:,}'


def table(report: dict[str, Any]) -> str:
    accepted = sum(figures['accepted'] for figures in report['passes'].values())
    lines = [f'{report["runs"]:,} runs: {accepted:,} accepted, {report["runs"] - accepted:,} refused',
             f'{"pass":<6}{"accepted":>10}{"boundaries":>14}{"kept":>14}{"removed":>14}  mean kept']
    for number, figures in report['passes'].items():
        lines.append(f'{number:<6}{figures["accepted"]:>10,}{figures["boundaries"]:>14,}{figures["kept"]:>14,}{figures["removed"]:>14,}  {mean_words(figures)}')
    lines.append(f'squared lengths of kept rows: {report["squared"]:,} square pixels')
    lines += [f'refused {number}: {count:,} ({WORDS.get(number, "")})' for number, count in report['refused'].items()]
    return '\n'.join(lines) + '\n'


def run(args: argparse.Namespace) -> int:
    answers: Answers = chosen(args)
    sheets = Sheets(named(args))
    report = proved(sheets) if answers.proved else summed(map(run_of, sheets))
    if args.json:
        _streams.write('-', json.dumps({'proved': answers.proved, **report}) + '\n')
    else:
        _streams.write('-', table(report) + ('' if answers.proved else UNPROVED))
    if report['beyond']:
        beyond = '1 run' if report['beyond'] == 1 else f'{report["beyond"]:,} runs'
        _streams.said(f'beyond the first {MOST_RUNS:,} {beyond} refused 3, which changed nothing')
    return max(sheets.status, 1 if report['beyond'] else 0)
