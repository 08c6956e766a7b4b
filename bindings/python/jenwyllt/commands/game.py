"""`jenwyllt game`: runner and guard on the kept graph of a map."""
from __future__ import annotations

import argparse
from typing import Any

from ..explained import explained
from ..game import MOST_GAME_REGIONS, KeptGame, Verdict, Winner, runner_and_guard
from ..game_drawing import GamePicture
from ..game_play import End, Place, Play, line_of_play
from ..kept import kept_boundaries
from ..partition import partition
from ..refusal import Cause, Refusal
from ..sheet import Sheet
from ..sheet_text import Wrong
from . import _maps, _streams
from ._answers import PROVED
from .keptlist import as_json, refuse, row_json
from .regions import counted

NAME = 'game'
HELP = 'say who can force a win of runner and guard on the kept graph of a map, in how few moves, and how'
EXAMPLE = '''
jenwyllt game examples/junctions.txt --goal 1
jenwyllt game examples/junctions.txt --goal 6 --runner 4 --guard 1 --draw game.svg
jenwyllt game examples/junctions.sheet --goal 1 --table
'''
MOST = 2 ** 64 - 1
NAMES = {Winner.RUNNER: 'runner', Winner.GUARD: 'guard'}
ENDS = {End.GOAL: 'the runner has won', End.CAPTURE: 'the guard has won', End.ENDLESS: 'and so on for ever: the guard wins'}


def region(words: str) -> int:
    """a whole number that a call takes"""
    if not (words.isascii() and words.isdigit() and int(words) <= MOST):
        raise argparse.ArgumentTypeError(f'{words} is no whole number from 0 to {MOST}')
    return int(words)


def add_arguments(parser: argparse.ArgumentParser) -> None:
    parser.description = (f'{HELP[:1].upper()}{HELP[1:]}.\n\nThe kept graph is the map cut again by the boundaries that its pass keeps; its spans and boundaries must be one list.\n'
                          'Runner and guard move by turns along its edges, or stay, the runner first. On the goal the runner wins, on the same region\n'
                          'the guard, who also wins if play never ends. The line of play has a winner keep to the region that the table names;\n'
                          'a guard who cannot win goes where the runner needs the most moves, and a runner who cannot win stays.')
    parser.add_argument('map', nargs='?', default='-', metavar='MAP', help=_maps.MAP_HELP)
    parser.add_argument('--goal', type=region, required=True, metavar='G', help='the goal, a region of the kept graph, from 1')
    parser.add_argument('--runner', type=region, metavar='R', help='where the runner starts; with --guard')
    parser.add_argument('--guard', type=region, metavar='U', help='where the guard starts; with --runner')
    parser.add_argument('--table', action='store_true', help='also print the verdict of every place of both and either to move')
    parser.add_argument('--json', action='store_true', help='print a line of JSON')
    parser.add_argument('--draw', metavar='PICTURE', help='also write a picture (SVG) of the kept graph, with the line of play where there is one')


# ---- what is worked out

def graph_words(sheet: Sheet, goal: int, number: int) -> str:
    """of refusals 23 and 24, with the count of regions of the kept graph"""
    kept = sorted(row.number for row in kept_boundaries(sheet).rows)
    regions = partition(sheet.width, sheet.height, sheet.cells, [sheet.boundaries[k].span for k in kept]).regions
    if number == Cause.GRAPH:
        return f'the kept graph has {regions} regions, over {MOST_GAME_REGIONS}'
    return f'the goal {goal} is no region of the kept graph, which has {counted(regions, "region")}'


def worked_out(name: str, goal: int) -> tuple[Sheet, KeptGame]:
    """a refusal is in words about the map"""
    sheet = _maps.read(PROVED, _maps.sheet_data(name))
    try:
        return sheet, runner_and_guard(sheet, goal)
    except Refusal as refusal:
        if refusal.number in (Cause.GRAPH, Cause.GOAL):
            raise Refusal(refusal.number, refusal.place, graph_words(sheet, goal, refusal.number)) from None
        raise explained(refusal, sheet=sheet) from None


def edges_of(kept: KeptGame) -> list[tuple[int, int]]:
    return sorted({(pair.smaller, pair.larger) for pair in kept.partition.pairs})


def played(kept: KeptGame, args: argparse.Namespace) -> Play | None:
    """the line of play, where a start is told"""
    if args.runner is None:
        return None
    for who, start in (('runner', args.runner), ('guard', args.guard)):
        if not 1 <= start <= kept.game.regions:
            raise _streams.Failed(f'--{who} {start}: the kept graph has {counted(kept.game.regions, "region")}, from 1')
    return line_of_play(kept.game, edges_of(kept), args.runner, args.guard)


# ---- in words

def verdict_words(verdict: Verdict) -> str:
    if verdict.winner is Winner.GUARD:
        return 'the guard can force a win'
    return f'the runner can force a win in {counted(verdict.moves, "move")}'


def move_words(number: int, old: Place, new: Place) -> str:
    who, before, after = ('runner', old.runner, new.runner) if old.runners_turn else ('guard', old.guard, new.guard)
    return f'move {number}: {who} {f"stays on {after}" if before == after else f"to {after}"}\n'


def play_words(kept: KeptGame, play: Play) -> str:
    first = play.places[0]
    start = f'runner on {first.runner}, guard on {first.guard}: '
    if len(play.places) == 1:
        return f'{start}{"captured" if play.end is End.CAPTURE else "on the goal"} at the start, {ENDS[play.end]}\n'
    moves = ''.join(move_words(k, old, new) for k, (old, new) in enumerate(zip(play.places, play.places[1:]), 1))
    return f'{start}{verdict_words(kept.game.at(*first))}\n{moves}{ENDS[play.end]}\n'


def graph_lines(kept: KeptGame) -> str:
    game, edges = kept.game, edges_of(kept)
    won = [verdict.moves for verdict in game.verdicts if verdict.winner is Winner.RUNNER]
    words = f'kept graph: {counted(game.regions, "region")}, {counted(len(edges), "edge")}, by the {len(kept.rows)} of {kept.boundaries} boundaries kept\n'
    words += f'edges: {", ".join(f"{a} {b}" for a, b in edges)}\n' if edges else ''
    most = f', in {counted(max(won), "move")} at most' if won else ''
    return words + f'goal {game.goal}: of {len(game.verdicts)} places the runner can force a win from {len(won)}{most}; the guard from {len(game.verdicts) - len(won)}\n'


def table_lines(kept: KeptGame) -> str:
    """a line a place; - where there is no number"""
    lines = ['runner guard to-move winner moves region\n']
    for runner in range(1, kept.game.regions + 1):
        for guard in range(1, kept.game.regions + 1):
            for turn, mover in ((True, 'runner'), (False, 'guard')):
                verdict = kept.game.at(runner, guard, turn)
                moves = verdict.moves if verdict.winner is Winner.RUNNER else '-'
                lines.append(f'{runner} {guard} {mover} {NAMES[verdict.winner]} {moves} {verdict.region or "-"}\n')
    return ''.join(lines)


# ---- in JSON

def verdict_json(verdict: Verdict) -> dict[str, Any]:
    return {'winner': NAMES[verdict.winner], 'moves': verdict.moves if verdict.winner is Winner.RUNNER else None, 'region': verdict.region or None}


def game_json(kept: KeptGame, play: Play | None, table: bool) -> dict[str, Any]:
    game = kept.game
    said: dict[str, Any] = {'boundaries': kept.boundaries, 'kept': [row_json(row) for row in kept.rows], 'regions': game.regions, 'edges': edges_of(kept), 'goal': game.goal}
    if play:
        said |= {'verdict': verdict_json(game.at(*play.places[0])), 'play': [place._asdict() for place in play.places], 'end': play.end.value}
    if table:
        said['table'] = [{'runner': runner, 'guard': guard, 'to_move': mover, **verdict_json(game.at(runner, guard, turn))}
                         for runner in range(1, game.regions + 1) for guard in range(1, game.regions + 1) for turn, mover in ((True, 'runner'), (False, 'guard'))]
    return said


def run(args: argparse.Namespace) -> int:
    if (args.runner is None) != (args.guard is None):
        raise _streams.Failed('--runner and --guard go together')
    try:
        sheet, kept = worked_out(args.map, args.goal)
    except (Refusal, Wrong) as wrong:
        return refuse(args.map, wrong, True, args.json)
    play = played(kept, args)
    if args.json:
        _streams.write('-', as_json(args.map, True, game_json(kept, play, args.table)))
    else:
        _streams.write('-', graph_lines(kept) + (play_words(kept, play) if play else '') + (table_lines(kept) if args.table else ''))
    if args.draw:
        _streams.write(args.draw, GamePicture(sheet, kept, play).svg())
    return 0
