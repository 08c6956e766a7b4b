"""Maps that subcommands take: a file or standard input, as a sheet or as its text, told apart by the first byte."""
from __future__ import annotations

from ..explained import explained
from ..kept import Kept
from ..refusal import Refusal
from ..sheet import Sheet, sheet_bytes
from ..sheet_text import Wrong, sheet_of
from . import _streams
from ._answers import Answers

MAP = 'a sheet or its text'
MAP_HELP = f'{MAP}; without a file, or with -, standard input'
MARK = b'\xef\xbb\xbf'              # which some editors put at the start of a text


def is_text(data: bytes) -> bool:
    """whether the first byte can begin a text; none of these is the kind of a sheet"""
    return data.startswith(MARK) or data[:1].isspace() or b' ' < data[:1] < b'\x7f'


def text_sheet(data: bytes) -> Sheet:
    """of a text, or Wrong"""
    text = data.removeprefix(MARK)
    try:
        return sheet_of(text.decode())
    except UnicodeDecodeError as wrong:
        raise Wrong(text.count(b'\n', 0, wrong.start) + 1, f'byte {text[wrong.start]:#04x} is no text in UTF-8') from wrong


def as_sheet(data: bytes) -> bytes:
    """a sheet as it stands, and of a text the sheet that it makes, or Wrong"""
    return sheet_bytes(text_sheet(data)) if is_text(data) else data


def sheet_data(name: str) -> bytes:
    """the bytes of the sheet, or of that which the text makes"""
    return as_sheet(_streams.read(name, MAP))


def read(answers: Answers, data: bytes) -> Sheet:
    """the sheet; a refusal is in words about it"""
    try:
        return answers.read_sheet(data)
    except Refusal as refusal:
        raise explained(refusal, data) from None


def kept(answers: Answers, sheet: Sheet, records: int | None = None, pair_rows: int | None = None) -> Kept:
    """what its pass makes of a map; a refusal is in words about it"""
    try:
        return answers.kept_boundaries(sheet, records, pair_rows)
    except Refusal as refusal:
        raise explained(refusal, sheet=sheet) from None


def refused(name: str, wrong: Refusal | Wrong) -> _streams.Refused:
    return _streams.Refused(f'{_streams.shown(name)}: {wrong}')
