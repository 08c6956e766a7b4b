"""A map to look at: one HTML file that holds the library's answers and draws them. What it shows is in its data alone (`page_data`); page.html only draws."""
from __future__ import annotations

import base64
import json
from collections.abc import Iterable, Sequence
from html import escape
from itertools import groupby
from pathlib import Path
from typing import Any

from .dominance import dominance
from .drawing import look_of
from .explained import explained
from .game import MOST_GAME_REGIONS, solve_game
from .kept import Kept, kept_boundaries
from .partition import partition
from .ranked import conflict_words, ports_of, ranked_junctions
from .refusal import Refusal
from .rest import PASSES, by_turns, run_to_rest
from .separations import BOUND_WORDS, separations
from .sheet import Sheet, number_bytes

TEMPLATE = Path(__file__).with_name('page.html')
MERGED = 4096                       # with more regions than these the steps of a run do not say how they merge


def run_lengths(values: Iterable[int]) -> str:
    """runs of a value and its length, in seven-bit groups, in base64"""
    return base64.b64encode(b''.join(number_bytes(value) + number_bytes(len(list(run))) for value, run in groupby(values))).decode()


def in_words(refusal: Refusal, sheet: Sheet) -> dict[str, Any]:
    return {'words': str(explained(refusal, sheet=sheet))}


def merged(before: Sequence[int], after: Sequence[int], regions: int) -> list[int] | None:
    """for each region the one that its cells belong to afterwards: taking spans away only merges regions"""
    if regions > MERGED:
        return None
    out = [0] * regions
    for old, new in zip(before, after):
        if old:
            out[old - 1] = new
    return out


def rest_data(sheet: Sheet, labels: Sequence[int], regions: int) -> dict[str, Any]:
    """the rounds of running to rest as steps, each a pass with what it removes and how regions merge"""
    try:
        rested = run_to_rest(sheet)
    except Refusal as refusal:
        return in_words(refusal, sheet)
    rounds, rows = by_turns(sheet)
    if (rows, len(rounds)) != (rested.rows, rested.rounds):
        raise ValueError('the passes called by turns do not end in the rows of the run')
    steps: list[dict[str, Any]] = []
    gone: set[int] = set()
    into = list(range(1, regions + 1)) if regions <= MERGED else None
    for k, each in enumerate(rounds, 1):
        for pass_number, removed in zip(PASSES, each.removed):
            if removed and into is not None:
                gone |= set(removed)
                left = [boundary.span for number, boundary in enumerate(sheet.boundaries) if number not in gone]
                into = merged(labels, partition(sheet.width, sheet.height, sheet.cells, left).labels, regions)
            steps.append({'round': k, 'pass': pass_number, 'removed': removed, 'merged': into})
    return {'kept': len(rows), 'rounds': len(rounds), 'steps': steps}


def ranked_data(sheet: Sheet) -> dict[str, Any]:
    """the ranked junction list of pass 3, with ports, which stand in the pairs, and why a refused one was refused"""
    try:
        ranked = ranked_junctions(sheet)
    except Refusal as refusal:
        return in_words(refusal, sheet)
    cut, rows = ranked.kept.partition, []
    for rank, proposal in enumerate(ranked.proposals):
        rows.append({'kind': 'bridge' if proposal.bridge else 'union', 'boundary': proposal.boundary, 'regions': [proposal.first, proposal.second],
                     'ports': ports_of(proposal, cut), 'taken': proposal.taken,
                     **({} if proposal.taken else {'by': proposal.by, 'because': conflict_words(rank, ranked.proposals, cut)})})
    return {'rows': rows}


def game_data(sheet: Sheet, kept: Sequence[int]) -> dict[str, Any]:
    """the kept graph, the map cut by its kept boundaries alone, as written, in list order, and the verdicts of every goal"""
    cut = partition(sheet.width, sheet.height, sheet.cells, [sheet.boundaries[number].span for number in sorted(kept)])
    if not 1 <= cut.regions <= MOST_GAME_REGIONS:
        return {'words': f'The kept graph has {cut.regions} regions; the game is played on 1 to {MOST_GAME_REGIONS}.'}
    edges = [(pair.smaller, pair.larger) for pair in cut.pairs]
    verdicts = [[number for verdict in solve_game(cut.regions, edges, goal).verdicts for number in verdict] for goal in range(1, cut.regions + 1)]
    return {'regions': cut.regions, 'labels': run_lengths(cut.labels), 'pairs': [list(pair) for pair in cut.pairs], 'verdicts': verdicts}


def separations_data(sheet: Sheet) -> dict[str, Any]:
    rows = separations(sheet.width, sheet.height, sheet.boundaries)
    return {'bound': BOUND_WORDS, 'rows': [[row.value, row.numerator, row.denominator] for row in rows]}


def region_data(record: Any) -> dict[str, Any]:
    counts = list(record.elevation_counts)
    found = dominance(record.cells, counts)
    return {'cells': record.cells, 'ramp_cells': record.ramp_cells, 'counts': counts, 'elevation': found.elevation, 'share': found.share and list(found.share)}


def page_data(sheet: Sheet, title: str) -> dict[str, Any]:
    """what the page shows of a map that its pass accepts; raises Refusal"""
    first: Kept = kept_boundaries(sheet)
    passes = {}
    for number in PASSES:
        rows = kept_boundaries(Sheet(number, sheet.width, sheet.height, sheet.cells, sheet.spans, sheet.boundaries, sheet.anchors)).rows
        kept = {row.number for row in rows}
        passes[number] = {'removed': [k for k in range(len(sheet.boundaries)) if k not in kept]}
    labels, regions = first.partition.labels, first.partition.regions
    rest = rest_data(sheet, labels, regions)
    views = [[str(number), f'Pass {number} ({number})'] for number in PASSES] + ([['rest', 'At rest (R)']] if 'steps' in rest else [])
    return {
        'title': title, 'pass': sheet.pass_number, 'width': sheet.width, 'height': sheet.height, 'views': views,
        'terrain': run_lengths(map(look_of, sheet.cells)), 'labels': run_lengths(labels),
        'boundaries': [{'ends': [*b.start, *b.end], 'width': b.width, 'kind': b.kind, 'ramp': b.ramp, 'lower': b.lower, 'upper': b.upper} for b in sheet.boundaries],
        'spans_elsewhere': [list(span.numbers()) for span in sheet.spans] if len(sheet.spans) != len(sheet.boundaries) else
        [list(span.numbers()) for span, boundary in zip(sheet.spans, sheet.boundaries) if span != boundary.span],
        'anchors': sorted(set(map(tuple, sheet.anchors))), 'pairs': [list(pair) for pair in first.partition.pairs],
        'regions': [region_data(record) for record in first.records], 'passes': passes, 'rest': rest, 'separations': separations_data(sheet),
        'ranked': ranked_data(sheet), 'game': game_data(sheet, [row.number for row in first.rows])}


def page(sheet: Sheet, title: str) -> str:
    """the whole file"""
    # No text of the data can end the script that holds it.
    data = json.dumps(page_data(sheet, title), separators=(',', ':')).replace('<', '\\u003c')
    return TEMPLATE.read_text().replace('@TITLE@', escape(title)).replace('@DATA@', data)
