"""The stored lines of accession records, replayed through the library, and the command `jenwyllt line`. vectors/README.md has the format."""
from __future__ import annotations

import json
import unittest

from jenwyllt import Cause, Refusal
from jenwyllt._library import U64, lent
from jenwyllt.accession import ACCESSION_NUMBERS, REPORT_LINE, Accession, report_line
from jenwyllt.sheet import grouped

from . import declarations
from .files import EXAMPLES, ROOT, VECTORS
from .test_command import Trial, run

MOST = 2 ** 64 - 1


def entries(numbers: list[int]) -> list[Accession]:
    return [Accession(*four) for four in grouped(numbers, ACCESSION_NUMBERS)]


class Stored(unittest.TestCase):
    def test_stored(self) -> None:
        """answer, place and every entry of the lent output"""
        lines = (VECTORS / 'accession.txt').read_text().splitlines()
        self.assertGreaterEqual(len(lines), 1_800)
        for line in lines:
            records, (own, room), (number, value), rows = (list(map(int, part.split())) for part in line.split(';'))
            before = [1_000_000_007 + k for k in range(room)]
            output = lent(U64, before)
            answer = REPORT_LINE(lent(U64, records), own, output)
            self.assertEqual((answer.number, answer.value), (number, value), line)
            self.assertEqual(output[:], rows + before[len(rows):], line)
            if number == 0:
                self.assertEqual(report_line(entries(records), own), entries(rows), line)

    def test_sizes(self) -> None:
        definition = (ROOT / 'crates' / 'catalogue' / 'specs' / 'Accession.antt').read_text()
        self.assertIn(f'\nnumbers_per_accession = {ACCESSION_NUMBERS}\n', definition)
        self.assertEqual(declarations.header_enum('jenwyllt_size')['ACCESSION_NUMBERS'], ACCESSION_NUMBERS)

    def test_long(self) -> None:
        """lists beyond the tables: 1,025 records, and 131,372 of which the last 300 are walked over"""
        for count, maps in ((1_025, 7), (131_372, 300)):
            records = [Accession(k + 1, 32_749 * (k % maps), k // maps, max(k + 1 - maps, 0)) for k in range(count)]
            line = report_line(records, count)
            self.assertEqual(line, records[(count - 1) % maps::maps][::-1])
            for place, changed in ((count - 1, {'day': 0}), (count - 2, {'superseded': 0}), (count - 3, {'superseded': records[count - 3].own - 2 * maps})):
                with self.assertRaises(Refusal) as caught:
                    report_line([*records[:place], records[place]._replace(**changed), *records[place + 1:]], 1)
                self.assertEqual(caught.exception, Refusal(Cause.ACCESSION, place))


class Command(Trial):
    def test_line(self) -> None:
        records = EXAMPLES / 'accessions.records'
        self.answers('9 7 12 4\n4 7 10 1\n1 7 10 0\n', 'line', records, 4)
        self.answers('10 9 3 2\n2 9 3 0\n', 'line', '-', 2, data=records.read_bytes())
        found = json.loads(run('line', '--json', records, 10).stdout)
        self.assertEqual((found['own'], found['line'][0]), (10, {'own': 10, 'map': 9, 'day': 3, 'superseded': 2}))
        done = run('line', records, 3)
        self.assertEqual((done.returncode, done.stdout, done.stderr.decode()), (0, b'', f'jenwyllt: {records}: no record has the own number 3\n'))
        self.assertEqual(json.loads(run('line', '--json', records, 3).stdout)['line'], [])
        for text, key in (('1 7 5 0\n2 7 5 0', 'refused'), ('1 7 5', 'wrong')):
            done = run('line', '--json', '-', 1, data=text.encode())
            self.assertEqual((done.returncode, done.stderr), (1, b''))
            self.assertIn(key, json.loads(done.stdout))

    def test_words(self) -> None:
        for text, said in (
                ('0 7 1 0', 'refused 17 at 0: line 1: record 0: its own number is 0'),
                ('3 7 1 0\n\n3 8 1 0', 'refused 17 at 1: line 3: record 3: its own number is not above 3, that of the record before it'),
                ('1 7 5 0\n2 9 1 0\n3 7 4 1', 'refused 17 at 2: line 3: record 3: its day is before day 5 of record 1, of the same map'),
                ('1 7 5 0\n2 7 5 0', 'refused 17 at 1: line 2: record 2: it supersedes none, and record 1 of its map is before it'),
                ('1 7 5 4', 'refused 17 at 0: line 1: record 1: it is the first of map 7, and supersedes 4 in place of 0'),
                ('1 7 5 0\n2 9 5 0\n3 7 5 2', 'refused 17 at 2: line 3: record 3: no record of map 7 before it has the own number 2'),
                ('1 7 5 0\n2 7 5 1\n3 7 5 1 ; a branch',
                 'refused 17 at 2: line 3: record 3: record 1 is superseded already; the last of map 7 before it is 2'),
                ('1 7 5', 'line 1: a record has four numbers, own number, map, day and number superseded, and here are 3'),
                ('; none\n1 7 5 -1', f"line 2: '-1' is no whole number from 0 to {MOST:,}"),
                (f'1 7 5 {MOST + 1}', f"line 1: '{MOST + 1}' is no whole number from 0 to {MOST:,}")):
            self.fails(1, f'jenwyllt: standard input: {said}', 'line', '-', 1, data=text.encode())
        self.fails(1, 'jenwyllt: standard input: line 1: byte 0xff is no text in UTF-8', 'line', '-', 1, data=b'\xff')
        self.fails(2, f"jenwyllt: 'x' is no own number: a whole number from 0 to {MOST:,}", 'line', EXAMPLES / 'accessions.records', 'x')
        self.fails(2, 'jenwyllt: nowhere: No such file or directory', 'line', 'nowhere', 1)
