"""The ranked junction list: the greedy choice of pass 3, step by step."""
from __future__ import annotations

import ctypes
from dataclasses import dataclass
from typing import NamedTuple

from ._library import U8, U16, U32, U64, Function, ListOf, lent
from .kept import CallRoom, Kept, Region
from .partition import Partition
from .refusal import Refusal
from .sheet import Sheet, grouped

RANKED_NUMBERS = 6
MOST_PROPOSALS = 426                # 256 unions and 170 bridges


class RankedProposal(NamedTuple):
    """a proposal of pass 3 that reached the ranking; its rank is its place in the list, from 0"""
    bridge: bool                    # a union otherwise
    boundary: int
    first: int                      # of a union the smaller region of its pair, of a bridge its pocket
    second: int                     # of a union the larger, of a bridge the exterior
    taken: bool
    by: int                         # of a refused one the rank of the earliest taken proposal that it conflicts with; 0 for a taken one

    @classmethod
    def of_numbers(cls, numbers: tuple[int, ...]) -> RankedProposal:
        kind, boundary, first, second, taken, by = numbers
        return cls(kind == 1, boundary, first, second, taken == 1, by)

    def numbers(self) -> tuple[int, ...]:
        return int(self.bridge), self.boundary, self.first, self.second, int(self.taken), self.by


@dataclass(frozen=True)
class Ranked:
    """what pass 3 makes of a map, and the proposals that it chose from, in rank order"""
    kept: Kept
    proposals: list[RankedProposal]


class RankedAnswer(ctypes.Structure):
    """number 0, the count of rows kept and that of proposals; or a refusal's number and place, and 0"""
    _fields_ = [('number', U64), ('value', U64), ('proposals', U64)]
    number: int
    value: int
    proposals: int

    def counts(self) -> tuple[int, int]:
        if self.number:
            raise Refusal(self.number, self.value)
        return self.value, self.proposals


RANKED_JUNCTIONS = Function(
    'jenwyllt_ranked_junctions', RankedAnswer, width=U64, height=U64, cells=ListOf(U8), spans=ListOf(U64), boundaries=ListOf(U64), anchors=ListOf(U64),
    labels=ListOf(U32, filled=True), masks=ListOf(U16, filled=True), queue=ListOf(U32, filled=True), tallies=ListOf(U32, filled=True),
    pairs=ListOf(U32, filled=True), records=ListOf(Region, filled=True), output=ListOf(U64, filled=True), ranked=ListOf(U32, filled=True))


def ranked_junctions(sheet: Sheet, rows: int = MOST_PROPOSALS) -> Ranked:
    """cuts the map by its spans and runs pass 3, whatever pass the sheet names, with its ranked list. Refused 1 to 3 and 5 to 9; with fewer rows than there are
    proposals 21"""
    room, ranked = CallRoom(sheet), lent(U32, RANKED_NUMBERS * rows)
    kept, proposals = room.filled_by(lambda: RANKED_JUNCTIONS(sheet.width, sheet.height, *room.lists(), ranked).counts())
    found = Kept(room.rows(kept), len(sheet.boundaries), room.partition(), room.region_records())
    return Ranked(found, [RankedProposal.of_numbers(six) for six in grouped(ranked[:RANKED_NUMBERS * proposals], RANKED_NUMBERS)])


# ---- why one was refused, in words: no row holds ports, so they are taken from the pairs

def ports_of(proposal: RankedProposal, partition: Partition) -> list[int]:
    """of a union all boundaries of its two regions but its own, of a bridge those of its pocket, ascending"""
    regions = {proposal.first} if proposal.bridge else {proposal.first, proposal.second}
    found = {pair.span for pair in partition.pairs if regions & {pair.smaller, pair.larger}}
    return sorted(found if proposal.bridge else found - {proposal.boundary})


def conflict_words(rank: int, proposals: list[RankedProposal], partition: Partition) -> str:
    """of a refused one: the first of the Rust's tests that the taken one it names meets"""
    refused, by = proposals[rank], proposals[rank].by
    taken = proposals[by]
    own, others = ports_of(refused, partition), ports_of(taken, partition)
    if taken.boundary in own:
        return f'its port {taken.boundary} is the boundary of rank {by}'
    if refused.boundary in others:
        return f'its boundary {refused.boundary} is a port of rank {by}'
    for port in own:
        if port in others:
            return f'its port {port} is a port of rank {by}'
    return f'it has a region of rank {by}'
