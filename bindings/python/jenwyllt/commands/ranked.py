"""`jenwyllt ranked`: the greedy choice of pass 3, proposal by proposal."""
from __future__ import annotations

import argparse
from dataclasses import replace
from typing import Any

from ..drawing import RankedPicture
from ..explained import explained
from ..kept_list import UNPROVED
from ..ranked import Ranked, RankedProposal, conflict_words, ports_of, ranked_junctions
from ..refusal import Refusal
from ..sheet import Sheet
from ..sheet_text import Wrong
from ..unproved.ranked import ranked_junctions as unproved_ranked
from . import _maps, _streams
from ._answers import Answers, add_unproved, chosen
from .keptlist import as_json, refuse
from .regions import counted

NAME = 'ranked'
HELP = 'print the proposals of pass 3 in rank order, which of them were taken, and why the others were refused'
EXAMPLE = '''
jenwyllt ranked examples/junctions.txt
jenwyllt ranked --json examples/junctions.sheet
jenwyllt ranked examples/junctions.sheet --draw junctions.svg
'''


def add_arguments(parser: argparse.ArgumentParser) -> None:
    parser.add_argument('map', nargs='?', default='-', metavar='MAP', help=_maps.MAP_HELP + '; its own pass does not matter')
    parser.add_argument('--json', action='store_true', help='print a line of JSON')
    parser.add_argument('--draw', metavar='PICTURE', help='also make a picture (SVG) with the ranks')
    add_unproved(parser)


def name_of(proposal: RankedProposal) -> str:
    if proposal.bridge:
        return f'bridge, boundary {proposal.boundary}, pocket {proposal.first} and exterior {proposal.second}'
    return f'union, boundary {proposal.boundary}, regions {proposal.first} and {proposal.second}'


def line(rank: int, ranked: Ranked) -> str:
    proposal, partition = ranked.proposals[rank], ranked.kept.partition
    ports = ' '.join(map(str, ports_of(proposal, partition)))
    fate = 'taken' if proposal.taken else f'refused: {conflict_words(rank, ranked.proposals, partition)}'
    return f'rank {rank}: {name_of(proposal)}, ports {ports or "none"}: {fate}\n'


def printed(ranked: Ranked) -> str:
    taken = sum(proposal.taken for proposal in ranked.proposals)
    first = f'{counted(len(ranked.proposals), "proposal")}, {taken} taken; pass 3 keeps {len(ranked.kept.rows)} of {ranked.kept.boundaries}\n'
    return first + ''.join(line(rank, ranked) for rank in range(len(ranked.proposals)))


def ranked_json(ranked: Ranked) -> dict[str, Any]:
    each = [{'rank': rank, 'kind': 'bridge' if proposal.bridge else 'union', 'boundary': proposal.boundary, 'regions': [proposal.first, proposal.second],
             'ports': ports_of(proposal, ranked.kept.partition), 'taken': proposal.taken, 'refused_by': None if proposal.taken else proposal.by}
            for rank, proposal in enumerate(ranked.proposals)]
    return {'boundaries': ranked.kept.boundaries, 'kept': [row.number for row in ranked.kept.rows], 'proposals': each}


def worked_out(answers: Answers, name: str) -> tuple[Sheet, Ranked]:
    """the sheet, as of pass 3, and its list; a refusal is in words about the map"""
    sheet = replace(_maps.read(answers, _maps.sheet_data(name)), pass_number=3)
    try:
        return sheet, (ranked_junctions if answers.proved else unproved_ranked)(sheet)
    except Refusal as refusal:
        raise explained(refusal, sheet=sheet) from None


def run(args: argparse.Namespace) -> int:
    answers = chosen(args)
    try:
        sheet, ranked = worked_out(answers, args.map)
    except (Refusal, Wrong) as wrong:
        return refuse(args.map, wrong, answers.proved, args.json)
    if args.json:
        _streams.write('-', as_json(args.map, answers.proved, ranked_json(ranked)))
    else:
        _streams.write('-', printed(ranked) + ('' if answers.proved else UNPROVED))
    if args.draw:
        _streams.write(args.draw, RankedPicture(sheet, ranked, proved=answers.proved).svg())
    return 0
