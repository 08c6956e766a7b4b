"""The command `jenwyllt result`, as a technician would use it: runs stored, printed and checked, and each way in which a result is wrong in clear words."""
from __future__ import annotations

import json
import unittest

import jenwyllt
from jenwyllt import RunResult
from jenwyllt.result_text import ENTRIES, explained, first_difference, found

from .files import EXAMPLES, NAMES, stored_maps
from .test_command import Trial, run

SMALL = RunResult(2, [1, 1, 0, 2, 1], [3, 2, 1, 0], [0, 1, 2, 1, 1, 2], [1, 8, 8, 8, 16, 0, 300, 8, 16, 16])
SMALL_TEXT = '''2 regions, 5 labels, 2 spans, 2 pair rows, 2 rows
labels from 0: 1 1 0 2 1
span 0: 3 steps removed, 2 between regions
span 1: 1 step removed, 0 between regions
pair row 0: span 0 parts 1 and 2
pair row 1: span 1 parts 1 and 2
row 0: boundary 1 from 8 8 to 8 16
row 1: boundary 0 from 300 8 to 16 16
'''


class Runs(unittest.TestCase):
    def test_stored_maps(self) -> None:
        """what a run of each stored map found is written, reads as itself, and is what the Rust finds"""
        for each in stored_maps():
            run_found = found(jenwyllt.kept_boundaries(jenwyllt.read_sheet(each.sheet)))
            self.assertEqual([list(part) for part in run_found[1:]], [each.numbers[word] for word in ('labels', 'tallies', 'pairs', 'rows')], each.name)
            self.assertEqual(jenwyllt.read_result(jenwyllt.write_result(*run_found)), run_found, each.name)
            self.assertEqual(run_found.regions, max(run_found.labels), each.name)


class Differences(unittest.TestCase):
    def test_first(self) -> None:
        self.assertIsNone(first_difference(SMALL, SMALL))
        for change, said in (
                ({'regions': 3}, 'region count: the result has 3; the run finds 2'),
                ({'labels': [1, 1, 0, 2, 2]}, 'label 4: the result has 2; the run finds 1'),
                ({'labels': [1, 1, 0, 2]}, 'number of labels: the result has 4; the run finds 5'),
                ({'tallies': [3, 2, 4, 0]}, 'span 1: the result has 4 steps removed, 0 between regions; the run finds 1 step removed, 0 between regions'),
                ({'pairs': [0, 1, 2]}, 'number of pair rows: the result has 1; the run finds 2'),
                ({'pairs': [0, 1, 2, 1, 1, 3]}, 'pair row 1: the result has span 1 parts 1 and 3; the run finds span 1 parts 1 and 2'),
                ({'rows': [1, 8, 8, 8, 17, 0, 300, 8, 16, 16]},
                 'row 0: the result has boundary 1 from 8 8 to 8 17; the run finds boundary 1 from 8 8 to 8 16'),
                ({'labels': [1, 2, 0, 2, 1], 'rows': []}, 'label 1: the result has 2; the run finds 1')):
            self.assertEqual(first_difference(SMALL._replace(**change), SMALL), said)


class Words(unittest.TestCase):
    def test_rules(self) -> None:
        """each rule broken, in words with the place"""
        for numbers, said in (
                ([2, 3, 2, 1, 3, 0, 0, 0], 'refused 15 at 4: at byte 4 label 1 is 3, and the labels before it start 1 number: it can be 2 at most'),
                ([2, 1, 2, 1, 2, 0, 0, 0], 'refused 15 at 4: at byte 4 label 1 is 2, over the region count 1'),
                ([2, 3, 2, 1, 2, 0, 0, 0], 'refused 15 at 1: at byte 1 the region count is 3, and the labels start 2 numbers'),
                ([2, 0, 0, 0, 2, 0, 1, 2, 0, 1, 2, 0],
                 'refused 15 at 8: at byte 8 pair row 1, span 0 parts 1 and 2, is not above the one before it, span 0 parts 1 and 2'),
                ([2, 0, 0, 1, 7, 7, 0, 2, 1, 8, 8, 8, 9, 2, 8, 8, 8, 8],
                 'refused 15 at 13: at byte 13 row 1, boundary 2 from 8 8 to 8 8, is not above the one before it, boundary 1 from 8 8 to 8 9'),
                ([2, 0, 0, 0, 0], 'refused 14 at 5: the result ends early, behind 5 bytes'), ([], 'refused 14 at 0: there are no bytes'),
                ([1, 0, 0, 0, 0, 0], 'refused 14 at 0: the sheet is of kind 1, not 2'), ([2, *[255] * 10], 'refused 14 at 1: the number at byte 1 is over 64 bits'),
                ([2, 128, 0], 'refused 14 at 1: the number at byte 1 is padded: it ends in a group of zero'),
                ([2, 0, 0, 0, 0, 0, 0], 'refused 14 at 6: the result is over at byte 6, and 1 byte is left')):
            with self.assertRaises(jenwyllt.Refusal) as raised:
                jenwyllt.read_result(bytes(numbers))
            self.assertEqual(str(explained(raised.exception, bytes(numbers))), said)

    def test_entries(self) -> None:
        self.assertEqual([name for name, _, _ in ENTRIES], ['label', 'span', 'pair row', 'row'])


class Command(Trial):
    def test_examples(self) -> None:
        for name in NAMES:
            sheet, result = EXAMPLES / f'{name}.sheet', self.folder / f'{name}.result'
            self.answers('', 'result', EXAMPLES / f'{name}.txt', '-o', result)
            self.assertEqual(run('result', data=sheet.read_bytes()).stdout, result.read_bytes())
            self.answers(f'{result} is what the run of {sheet} finds\n', 'result', '--check', sheet, result)
            self.answers(f'standard input is what the run of {sheet} finds\n', 'result', '--check', sheet, '-', data=result.read_bytes())
            rows = [line.split(': ')[1] for line in run('result', '--print', result).stdout.decode().splitlines() if line.startswith('row ')]
            kept = (EXAMPLES / f'{name}.kept').read_text().splitlines()[1:]
            self.assertEqual(rows, ['boundary {} from {} {} to {} {}'.format(*line.split(' ')) for line in kept])

    def test_print(self) -> None:
        data = jenwyllt.write_result(*SMALL)
        self.answers(SMALL_TEXT, 'result', '--print', data=data)
        self.answers(SMALL_TEXT, 'result', '--print', self.file('small.result', data))
        printed = json.loads(run('result', '--print', '--json', data=data).stdout)
        self.assertEqual((printed['regions'], printed['labels'], printed['pairs'], printed['rows'][1]), (2, [1, 1, 0, 2, 1], [[0, 1, 2], [1, 1, 2]], [0, 300, 8, 16, 16]))
        self.answers('0 regions, 0 labels, 0 spans, 0 pair rows, 0 rows\n', 'result', '--print', data=b'\2\0\0\0\0\0')

    def test_differs(self) -> None:
        sheet = EXAMPLES / 'case_j.sheet'
        data = bytearray(run('result', sheet).stdout)
        data[-1] += 1                                                   # the last number of the last row
        result = self.file('changed.result', bytes(data))
        said = 'row 3: the result has boundary 3 from 24 8 to 24 17; the run finds boundary 3 from 24 8 to 24 16'
        self.fails(1, f'jenwyllt: {result}: {said}', 'result', '--check', sheet, result)
        done = run('result', '--check', '--json', sheet, result)
        self.assertEqual((done.returncode, done.stderr), (1, b''))
        self.assertEqual(json.loads(done.stdout), {'file': str(result), 'proved': True, 'same': False, 'difference': said})
        other = EXAMPLES / 'mouths.sheet'
        done = run('result', '--check', other, self.file('other.result', run('result', sheet).stdout))
        self.assertEqual((done.returncode, done.stdout), (1, b''))
        self.assertIn(b': region count: the result has 6; the run finds ', done.stderr)

    def test_refused(self) -> None:
        result = self.file('bad.result', bytes([2, 3, 2, 1, 3, 0, 0, 0]))
        said = f'{result}: refused 15 at 4: at byte 4 label 1 is 3, and the labels before it start 1 number: it can be 2 at most'
        self.fails(1, f'jenwyllt: {said}', 'result', '--print', result)
        self.fails(1, f'jenwyllt: {said}', 'result', '--check', EXAMPLES / 'case_j.txt', result)
        refused = json.loads(run('result', '--print', '--json', result).stdout)['refused']
        self.assertEqual((refused['number'], refused['place']), (15, 4))
        self.fails(1, 'jenwyllt: standard input: refused 14 at 0: the sheet is of kind 1, not 2', 'result', '--print', data=(EXAMPLES / 'case_j.sheet').read_bytes())
        self.fails(1, 'jenwyllt: standard input: refused 14 at 0: the sheet is of kind 2, not 1 or 3', 'result', data=b'\2\0\0\0\0\0')

    def test_wrong_use(self) -> None:
        example = EXAMPLES / 'case_j.txt'
        self.fails(2, 'jenwyllt: --check takes a map and a result', 'result', '--check', example)
        self.fails(2, 'jenwyllt: one file is taken, not 2', 'result', example, example)
        self.fails(2, 'jenwyllt: map and result cannot both be read from standard input', 'result', '--check', '-', '-')
        self.fails(2, 'jenwyllt: --json goes with --print or --check', 'result', '--json', example)
        self.fails(2, 'jenwyllt: -o is for a result that is stored: --print and --check write to standard output', 'result', '--print', example, '-o', 'x')


if __name__ == '__main__':
    unittest.main()
