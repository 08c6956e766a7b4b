"""Sheets of kind 3, in which the boundaries serve as spans: written of a map, and converted of a sheet of kind 1."""
from __future__ import annotations

import ctypes

from ._library import U8, U64, Function, ListOf, lent
from .partition import Answer
from .refusal import Refusal
from .sheet import Sheet, flat

WRITE_SHEET = Function('jenwyllt_write_sheet', Answer, **{'pass': U64}, width=U64, height=U64, cells=ListOf(U8), boundaries=ListOf(U64),
                       anchors=ListOf(U64), out=ListOf(U8, filled=True))
CONVERT_SHEET = Function('jenwyllt_convert_sheet', Answer, bytes=ListOf(U8), out=ListOf(U8, filled=True))


def written(answer: Answer, out: ctypes.Array[ctypes.c_uint8]) -> bytes:
    if answer.number:
        raise Refusal(answer.number, answer.value)
    return bytes(out)[:answer.value]


def write_sheet(sheet: Sheet) -> bytes:
    """the sheet of kind 3, in shortest form; its boundaries serve as spans, and those of `sheet` are not looked at. Refused 1, 2 or 3"""
    boundaries, anchors = flat(sheet.boundaries), flat(sheet.anchors)
    # A cell takes two bytes at most, every other number ten.
    out = lent(U8, 2 * len(sheet.cells) + 10 * (6 + len(boundaries) + len(anchors)))
    answer = WRITE_SHEET(sheet.pass_number, sheet.width, sheet.height, lent(U8, sheet.cells), lent(U64, boundaries), lent(U64, anchors), out)
    return written(answer, out)


def convert_sheet(data: bytes) -> bytes:
    """the sheet of kind 3 that states what this one of kind 1 does. Another kind is refused 14 at 0; then 14, 1 and 3 as `read_sheet`, 4 to 9 as
    `kept_boundaries`, and 22 where the spans are not the boundaries' endpoints as written"""
    out = lent(U8, len(data))           # the new sheet is shorter
    return written(CONVERT_SHEET(lent(U8, data), out), out)
