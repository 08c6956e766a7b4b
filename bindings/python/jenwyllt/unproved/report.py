"""The year's figures, counted from the rendering: what each sheet adds, and their sum. Boundaries in are counted from the map, kept from the rows, removed from
the numbers that no row has."""
from __future__ import annotations

from collections.abc import Iterable
from typing import Any

from . import reference, sheet_bytes

MOST_RUNS = 10_000


def run_of(data: bytes) -> dict[str, int]:
    """of a sheet of any size: the number of its refusal, or its pass and figures"""
    try:
        m = sheet_bytes.read(data)
    except sheet_bytes.Refused as refused:
        return {'refused': refused.number}
    refused = reference.early_refusal(m, reference.lend(m), True)
    if refused:
        return {'refused': refused[0]}
    rows = reference.results(m)['rows']
    boundaries = list(reference.groups(m.boundaries, 9))
    named = {row[0] for row in rows}
    return {'pass': m.pass_number, 'boundaries': len(boundaries), 'kept': len(rows), 'removed': sum(i not in named for i in range(len(boundaries))),
            'squared': sum((boundaries[i][0] - boundaries[i][2]) ** 2 + (boundaries[i][1] - boundaries[i][3]) ** 2 for i in named)}


def summed(runs: Iterable[dict[str, int]]) -> dict[str, Any]:
    """the report of these runs, in this order, and how many were beyond the last"""
    report: dict[str, Any] = {'runs': 0, 'refused': {}, 'passes': {p: {'accepted': 0, 'boundaries': 0, 'kept': 0, 'removed': 0} for p in (1, 2, 3)},
                              'squared': 0, 'beyond': 0}
    for run in runs:
        if report['runs'] == MOST_RUNS:
            report['beyond'] += 1
            continue
        report['runs'] += 1
        if 'refused' in run:
            report['refused'][run['refused']] = report['refused'].get(run['refused'], 0) + 1
            continue
        figures = report['passes'][run['pass']]
        figures['accepted'] += 1
        for name in ('boundaries', 'kept', 'removed'):
            figures[name] += run[name]
        report['squared'] += run['squared']
    for figures in report['passes'].values():
        figures['mean'] = list(divmod(figures['kept'], figures['accepted'])) if figures['accepted'] else None
    report['refused'] = dict(sorted(report['refused'].items()))
    return report
