"""The year's figures: reports by the library against a count in Python, runs beyond the last, and the command `jenwyllt report`."""
from __future__ import annotations

import json
import unittest
from itertools import product

from jenwyllt import Figures, Mean, Report, empty_report, mean_kept, report_run, report_sheet
from jenwyllt.commands.report import proved, table
from jenwyllt.kept_list import MOST_BYTES
from jenwyllt.report import MOST_RUNS, PASSES, REFUSAL_NUMBERS
from jenwyllt.unproved.report import run_of, summed
from jenwyllt.unproved.sheet_bytes import keptlist

from .files import EXAMPLES, NAMES, ROOT, VECTORS
from .test_command import Trial, run

SHEETS = [(EXAMPLES / f'{name}.sheet').read_bytes() for name in NAMES]
ILL_FORMED = SHEETS[0][:-1]


def of_words(words: str) -> list[bytes]:
    return [b'' if word == '-' else bytes.fromhex(word) for word in words.split()]


def numbers(report: Report) -> list[int]:
    """as vectors/report.txt has them"""
    figures = [getattr(report.of_pass(number), name) for number in PASSES for name, _ in Figures._fields_]
    means = [mean_kept(report, number) for number in PASSES]
    return [report.runs, *report.refused, *figures, report.squared, *(n for mean in means for n in ((1, *mean) if mean else (0, 0, 0)))]


class Reports(unittest.TestCase):
    def test_stored(self) -> None:
        """in the stored order and in its reverse; every stored sheet is within the limits of keptlist"""
        lines = (VECTORS / 'report.txt').read_text().splitlines()
        self.assertGreaterEqual(len(lines), 100)
        for line in lines:
            words, said = line.split(';')
            for sheets, add in product((of_words(words), of_words(words)[::-1]), (report_run, report_sheet)):
                report = empty_report()
                for data in sheets:
                    report = add(report, data).report
                self.assertEqual(numbers(report), list(map(int, said.split())), line)

    def test_limits(self) -> None:
        """what report_sheet answers is what keptlist prints; a sheet that is too large is counted as refused"""
        wide = b'\1\1' + bytes([0x81, 0x20, 1]) + bytes([1]) * 4097 + bytes(3)
        for data in (*SHEETS, ILL_FORMED, b'', bytes(MOST_BYTES + 1), wide):
            added = report_sheet(empty_report(), data)
            printed = keptlist(data).split()
            self.assertEqual((added.number, added.value), (0, int(printed[1])) if printed[0] == 'kept' else (int(printed[1]), int(printed[3])))
            self.assertEqual((added.report.runs, added.report.refusals()), (1, {added.number: 1} if added.number else {}))

    def test_sizes(self) -> None:
        text = (ROOT / 'crates' / 'report' / 'specs' / 'Report.antt').read_text()
        self.assertIn(f'\nmax_runs = {MOST_RUNS:_}\n', text)
        self.assertIn(f'\nrefusal_numbers = {REFUSAL_NUMBERS}\n', text)
        self.assertIn(f'\npass_count = {len(PASSES)}\n', text)

    def test_empty(self) -> None:
        report = empty_report()
        self.assertEqual(bytes(report), bytes(len(bytes(report))))
        self.assertEqual([mean_kept(report, number) for number in range(5)], [None] * 5)

    def test_examples(self) -> None:
        sheets = [*SHEETS, ILL_FORMED, b'']
        self.assertEqual(proved(sheets), summed(map(run_of, sheets)))
        self.assertEqual(proved(sheets), proved(sheets[::-1]))

    def test_means(self) -> None:
        report = Report()
        report.pass_2.accepted, report.pass_2.kept = 3, 11
        self.assertEqual([mean_kept(report, number) for number in range(5)], [None, None, Mean(3, 2), None, None])

    def test_beyond(self) -> None:
        """the 10,000th run is added, the next one is refused 3 at 0 and changes nothing, whatever it is"""
        report = empty_report()
        report.runs = MOST_RUNS - 1
        last = report_run(report, SHEETS[0])
        self.assertEqual((last.number, last.report.runs), (0, MOST_RUNS))
        self.assertEqual(report_sheet(report, SHEETS[0]).report, last.report)
        for data, add in product((SHEETS[0], ILL_FORMED, b'', bytes(MOST_BYTES + 1)), (report_run, report_sheet)):
            beyond = add(last.report, data)
            self.assertEqual((beyond.number, beyond.value, bytes(beyond.report)), (3, 0, bytes(last.report)))

    def test_any_content(self) -> None:
        """sums are modulo 2^64"""
        report = empty_report()
        report.squared = report.pass_3.kept = 2 ** 64 - 1
        sheet = next(data for data in SHEETS if run_of(data)['pass'] == 3)
        added, alone = report_run(report, sheet).report, run_of(sheet)
        self.assertEqual((added.pass_3.kept, added.squared), (alone['kept'] - 1, alone['squared'] - 1))


class Command(Trial):
    def test_table(self) -> None:
        names = [EXAMPLES / f'{name}.sheet' for name in NAMES]
        self.answers(table(summed(map(run_of, SHEETS))), 'report', *names)
        listed = self.file('names', ''.join(f'{name}\n' for name in names))
        self.answers(table(summed(map(run_of, SHEETS))), 'report', '--names', listed)

    def test_json(self) -> None:
        bad = self.file('bad.sheet', ILL_FORMED)
        done = run('report', '--json', EXAMPLES / f'{NAMES[0]}.sheet', bad)
        self.assertEqual((done.returncode, done.stderr), (0, b''))
        self.assertEqual(json.loads(done.stdout), json.loads(json.dumps({'proved': True, **summed(map(run_of, (SHEETS[0], ILL_FORMED)))})))

    def test_beyond(self) -> None:
        """the maps are named in a file; the one beyond the last is said, and the status is 1"""
        listed = self.file('names', f'{EXAMPLES / NAMES[0]}.sheet\n' * (MOST_RUNS + 1))
        done = run('report', '--json', '--names', listed)
        self.assertEqual((done.returncode, done.stderr), (1, b'jenwyllt: beyond the first 10,000 1 run refused 3, which changed nothing\n'))
        self.assertEqual((json.loads(done.stdout)['runs'], json.loads(done.stdout)['beyond']), (MOST_RUNS, 1))

    def test_wrong_text(self) -> None:
        """is said, and its bytes are counted as the sheet that they are not"""
        done = run('report', '--json', self.file('wrong.txt', 'no map\n'), EXAMPLES / f'{NAMES[0]}.sheet')
        self.assertEqual((done.returncode, json.loads(done.stdout)['runs'], json.loads(done.stdout)['refused']), (1, 2, {'14': 1}))
        self.assertIn(b'wrong.txt: line 1', done.stderr)

    def test_missing(self) -> None:
        done = run('report', '--json', self.folder / 'none.sheet', EXAMPLES / f'{NAMES[0]}.sheet')
        self.assertEqual((done.returncode, json.loads(done.stdout)['runs']), (2, 1))
