"""The stored maps of days, replayed through the library, and the command `jenwyllt pool`. vectors/README.md has the format."""
from __future__ import annotations

import datetime
import json
import unittest

from jenwyllt import Accession, Cause, Date, Entry, Refusal, Term, maps_of_day
from jenwyllt._library import U64, lent
from jenwyllt.pool import ENTRY_NUMBERS, MAPS_OF_DAY, TERM_NUMBERS, date_of
from jenwyllt.sheet import grouped

from . import declarations
from .files import EXAMPLES, ROOT, VECTORS
from .test_command import Trial, run

FIRST = datetime.date(2000, 1, 1)


class Stored(unittest.TestCase):
    def test_stored(self) -> None:
        """answer, place and every entry of the lent output"""
        lines = (VECTORS / 'pool.txt').read_text().splitlines()
        self.assertGreaterEqual(len(lines), 2_000)
        for line in lines:
            terms, records, (*asked, room), (number, value), rows = (list(map(int, part.split())) for part in line.split(';'))
            before = [1_000_000_007 + k for k in range(room)]
            output = lent(U64, before)
            answer = MAPS_OF_DAY(lent(U64, terms), lent(U64, records), *asked, output)
            self.assertEqual((answer.number, answer.value), (number, value), line)
            self.assertEqual(output[:], rows + before[len(rows):], line)
            if number == 0:
                entries = maps_of_day([Term(t[0], Date(*t[1:4]), Date(*t[4:])) for t in grouped(terms, TERM_NUMBERS)],
                                      [Accession(*four) for four in grouped(records, 4)], Date(*asked))
                self.assertEqual([(e.map, *(e.record[0:1] + e.record[2:] if e.record else (0, 0, 0))) for e in entries], list(map(tuple, grouped(rows, 4))), line)

    def test_sizes(self) -> None:
        specs = ROOT / 'crates' / 'catalogue' / 'specs'
        self.assertIn(f'\nnumbers_per_term = {TERM_NUMBERS}\n', (specs / 'Terms.antt').read_text())
        self.assertIn(f'\nnumbers_per_entry = {ENTRY_NUMBERS}\n', (specs / 'Pool.antt').read_text())
        sizes = declarations.header_enum('jenwyllt_size')
        self.assertEqual((sizes['TERM_NUMBERS'], sizes['ENTRY_NUMBERS']), (TERM_NUMBERS, ENTRY_NUMBERS))

    def test_every_date(self) -> None:
        """each date of the century has the number that Python's calendar gives it, and is followed by the next"""
        for number in range(36_525):
            day, after = (date_of(FIRST + datetime.timedelta(n)) for n in (number, number + 1))
            found = maps_of_day([Term(3, day, after)], [Accession(1, 3, number, 0), Accession(2, 3, number + 1, 1)], day)
            self.assertEqual(found, [Entry(3, Accession(1, 3, number, 0))])
        for year in range(1999, 2102):
            for month in range(14):
                for day in (0, 1, 28, 29, 30, 31, 32):
                    try:
                        good = datetime.date(year, month, day).year in range(2000, 2100)
                    except ValueError:
                        good = False
                    answer = MAPS_OF_DAY(lent(U64, []), lent(U64, []), year, month, day, lent(U64, []))
                    self.assertEqual((answer.number, answer.value), (0 if good else Cause.DATE, 0), (year, month, day))

    def test_many(self) -> None:
        """a term a day for a hundred maps, in either order, and an overlap at the end"""
        terms = [Term(m, date_of(FIRST + datetime.timedelta(n)), date_of(FIRST + datetime.timedelta(n + 1))) for n in range(60) for m in range(100)]
        for listed in (terms, terms[::-1]):
            self.assertEqual(maps_of_day(listed, [], date_of(FIRST)), [Entry(m, None) for m in range(100)])
            with self.assertRaises(Refusal) as caught:
                maps_of_day([*listed, listed[5]], [], date_of(FIRST))
            self.assertEqual(caught.exception, Refusal(Cause.TERM, 6_000))


class Command(Trial):
    def test_pool(self) -> None:
        terms, records = EXAMPLES / 'pool.terms', EXAMPLES / 'pool.records'
        self.answers('3 no record\n7 record 4 of 2031-05-07, superseding 1\n9 no record\n', 'pool', terms, records, '2031-05-07')
        self.answers('3 no record\n7 record 5 of 2031-05-18, superseding 4\n', 'pool', terms, '-', '2031-06-01', data=records.read_bytes())
        found = json.loads(run('pool', '--json', terms, records, '2031-05-06').stdout)
        self.assertEqual(found['maps'], [{'map': 3, 'record': None}, {'map': 7, 'record': {'own': 1, 'map': 7, 'day': 11400, 'superseded': 0}}])
        bad = json.loads(run('pool', '--json', terms, records, '2100-01-01').stdout)
        self.assertEqual((bad['refused']['number'], bad['file']), (18, '2100-01-01'))
        done = run('pool', terms, records, '2032-01-01')
        self.assertEqual((done.returncode, done.stdout, done.stderr.decode()), (0, b'', 'jenwyllt: 2032-01-01: no map is in the pool\n'))

    def test_words(self) -> None:
        records = EXAMPLES / 'pool.records'
        for text, date, said in (
                ('7 2031-02-29 2031-03-01', '2031-01-01', 'standard input: refused 18 at 0: line 1: 2031-02-29 is no date that a first day can have'),
                ('7 2099-12-31 2100-01-01\n\n7 2031-01-01 2100-01-02', '2031-01-01',
                 'standard input: refused 18 at 1: line 3: 2100-01-02 is no date that an end can have'),
                ('7 2031-03-01 2031-03-01', '2031-01-01', 'standard input: refused 19 at 0: line 1: it ends on 2031-03-01, no later than it starts'),
                ('7 2031-03-01 2031-04-01 ; spring\n7 2031-02-01 2031-03-02', '2031-01-01',
                 'standard input: refused 19 at 1: line 2: it overlaps the term of map 7 from 2031-03-01 to 2031-04-01, line 1'),
                ('7 2031-03-01 2031-04-01', '2100-01-01', 'refused 18 at 1: 2100-01-01 is no day from 2000-01-01 to 2099-12-31'),
                ('7 2031-03-01', '2031-01-01', 'standard input: line 1: a term has a map number, a first day and an end, and here are 2 words'),
                ('7 2031-3-1 2031-04-01', '2031-01-01', "standard input: line 1: '2031-3-1' is no date as 2031-05-07"),
                ('x 2031-03-01 2031-04-01', '2031-01-01', f"standard input: line 1: 'x' is no whole number from 0 to {2 ** 64 - 1:,}")):
            self.fails(1, f'jenwyllt: {said}', 'pool', '-', records, date, data=text.encode())
        self.fails(1, 'jenwyllt: standard input: refused 17 at 0: line 1: record 0: its own number is 0', 'pool', EXAMPLES / 'pool.terms', '-', '2031-01-01', data=b'0 7 1 0')
        self.fails(2, "jenwyllt: '7 May' is no date as 2031-05-07", 'pool', EXAMPLES / 'pool.terms', records, '7 May')
        self.fails(2, 'jenwyllt: terms and records cannot both be read from standard input', 'pool', '-', '-', '2031-01-01')
