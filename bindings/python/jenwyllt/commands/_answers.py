"""Who answers: the proved library, or with --unproved the rendering in Python."""
from __future__ import annotations

import argparse
from collections.abc import Callable, Sequence
from dataclasses import dataclass

from .. import unproved
from .._library import NotBuilt, library
from ..dominance import Dominance, dominance
from ..kept import Kept, kept_boundaries
from ..sheet import Sheet, read_sheet
from ._streams import Failed


@dataclass(frozen=True)
class Answers:
    proved: bool
    read_sheet: Callable[[bytes], Sheet]
    kept_boundaries: Callable[[Sheet, int | None, int | None], Kept]
    dominance: Callable[[int, Sequence[int]], Dominance]


PROVED = Answers(True, read_sheet, kept_boundaries, dominance)
UNPROVED = Answers(False, unproved.read_sheet, unproved.kept_boundaries, unproved.dominance)


def add_unproved(parser: argparse.ArgumentParser) -> None:
    parser.add_argument('--unproved', action='store_true',
                        help='answer by the rendering in Python, for where nothing is built: it is tested and not proved, and the output says so')


def chosen(args: argparse.Namespace) -> Answers:
    if args.unproved:
        return UNPROVED
    try:
        library()
    except NotBuilt as wrong:
        raise Failed(f'{wrong}; --unproved does without it') from wrong
    return PROVED
