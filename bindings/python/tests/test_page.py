"""`jenwyllt page`: what the data of a page hold are the library's lists. (tools/test_page.py looks at pages in a browser.)"""
from __future__ import annotations

import base64
import json
import re
import unittest
from typing import Any

from jenwyllt import Sheet, dominance, kept_boundaries, partition, read_sheet, run_to_rest, separations
from jenwyllt.drawing import look_of
from jenwyllt.game import solve_game
from jenwyllt.page import page
from jenwyllt.ranked import ports_of, ranked_junctions

from .files import EXAMPLES, NAMES
from .test_command import Trial, run


def data_in(text: str) -> dict[str, Any]:
    found = re.search(r'<script type="application/json" id="data">(.*?)</script>', text, re.S)
    assert found
    return json.loads(found[1])


def unrun(text: str) -> list[int]:
    """the entries of runs in seven-bit groups"""
    numbers, value, shift = [], 0, 0
    for byte in base64.b64decode(text):
        value |= (byte & 127) << shift
        shift += 7
        if byte < 128:
            numbers.append(value)
            value = shift = 0
    return [entry for k in range(0, len(numbers), 2) for entry in [numbers[k]] * numbers[k + 1]]


def sheet_of(name: str) -> Sheet:
    return read_sheet((EXAMPLES / f'{name}.sheet').read_bytes())


class Data(unittest.TestCase):
    def test_lists(self) -> None:
        for name in NAMES:
            sheet = sheet_of(name)
            data, kept = data_in(page(sheet, name)), kept_boundaries(sheet)
            self.assertEqual(unrun(data['terrain']), [look_of(cell) for cell in sheet.cells], name)
            self.assertEqual(unrun(data['labels']), kept.partition.labels, name)
            self.assertEqual(data['pairs'], [list(pair) for pair in kept.partition.pairs], name)
            self.assertEqual([b['ends'] + [b['width'], b['kind'], b['ramp'], b['lower'], b['upper']] for b in data['boundaries']],
                             [[*b.start, *b.end, b.width, b.kind, b.ramp, b.lower, b.upper] for b in sheet.boundaries], name)
            shares = [dominance(record.cells, list(record.elevation_counts)) for record in kept.records]
            self.assertEqual([(r['cells'], r['ramp_cells'], r['counts'], r['elevation'], r['share']) for r in data['regions']],
                             [(record.cells, record.ramp_cells, list(record.elevation_counts), of.elevation, of.share and list(of.share))
                              for record, of in zip(kept.records, shares)], name)
            rows = separations(sheet.width, sheet.height, sheet.boundaries)
            self.assertEqual(data['separations']['rows'], [[row.value, row.numerator, row.denominator] for row in rows], name)

    def test_choices(self) -> None:
        for name in NAMES:
            sheet = sheet_of(name)
            data, ranked, rested = data_in(page(sheet, name)), ranked_junctions(sheet), run_to_rest(sheet)
            for number in (1, 2, 3):
                rows = kept_boundaries(Sheet(number, sheet.width, sheet.height, sheet.cells, sheet.spans, sheet.boundaries, sheet.anchors)).rows
                self.assertEqual(sorted([*data['passes'][str(number)]['removed'], *(row.number for row in rows)]), list(range(len(sheet.boundaries))), name)
            self.assertEqual([(row['kind'] == 'bridge', row['boundary'], *row['regions'], row['taken'], row.get('by', 0), row['ports']) for row in data['ranked']['rows']],
                             [(*proposal, ports_of(proposal, ranked.kept.partition)) for proposal in ranked.proposals], name)
            gone = [number for step in data['rest']['steps'] for number in step['removed']]
            self.assertEqual((sorted([*gone, *(row.number for row in rested.rows)]), data['rest']['rounds']), (list(range(len(sheet.boundaries))), rested.rounds), name)
            last = data['rest']['steps'][-1]['merged']
            self.assertEqual([label and last[label - 1] for label in unrun(data['labels'])], rested.partition.labels, name)

    def test_game(self) -> None:
        for name in NAMES:
            sheet = sheet_of(name)
            game = data_in(page(sheet, name))['game']
            kept = sorted(row.number for row in kept_boundaries(sheet).rows)
            cut = partition(sheet.width, sheet.height, sheet.cells, [sheet.boundaries[number].span for number in kept])
            self.assertEqual((game['regions'], unrun(game['labels']), game['pairs']), (cut.regions, cut.labels, [list(pair) for pair in cut.pairs]), name)
            for goal, verdicts in enumerate(game['verdicts'], 1):
                solved = solve_game(cut.regions, [(pair.smaller, pair.larger) for pair in cut.pairs], goal)
                self.assertEqual(verdicts, [number for verdict in solved.verdicts for number in verdict], name)


class Command(Trial):
    def test_alone(self) -> None:
        """nothing is fetched, and a title cannot end the script"""
        made = self.folder / 'map.html'
        self.answers('', 'page', EXAMPLES / 'case_j.txt', '-o', made, '--title', '</script><b>')
        text = made.read_text()
        self.assertEqual(data_in(text)['title'], '</script><b>')
        self.assertEqual(re.findall(r'(?:src|href)="?(?:https?:|//|file:)', text), [])
        self.assertIn('<title>&lt;/script&gt;&lt;b&gt;</title>', text)

    def test_refused(self) -> None:
        text = (EXAMPLES / 'case_j.txt').read_text().replace('pass 3', 'pass 4')
        self.fails(1, 'jenwyllt: standard input: refused 4 at 0: the pass is 4, not 1, 2 or 3', 'page', data=text.encode())

    def test_two_lists(self) -> None:
        """spans that are not the boundaries: there is no run to rest, and the page says why"""
        data = data_in(run('page', data=((EXAMPLES / 'case_j.txt').read_text() + 'span 24 16 16 16\n').encode()).stdout.decode())
        self.assertIn('refused 16 at 4', data['rest']['words'])
        self.assertEqual([name for name, _ in data['views']], ['1', '2', '3'])
