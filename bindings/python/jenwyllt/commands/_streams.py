"""What subcommands read and write: files by name, - for the standard streams, and the ways in which that fails."""
from __future__ import annotations

import sys
from pathlib import Path


class Failed(Exception):
    """the system, or the user's words, did not allow it: exit status 2"""


class Unread(Failed):
    """an input could not be read; others may still be"""


class Refused(Exception):
    """an input is not as it must be: exit status 1"""


def shown(name: str) -> str:
    return 'standard input' if name == '-' else name


def said(wrong: object) -> None:
    """a line on standard error"""
    print(f'jenwyllt: {wrong}', file=sys.stderr, flush=True)


def read(name: str, wanted: str) -> bytes:
    """the bytes of a file or of standard input; where that is a terminal, a line says what is waited for"""
    try:
        if name != '-':
            return Path(name).read_bytes()
        if sys.stdin is None:
            raise Unread('standard input is closed')
        if sys.stdin.isatty():
            said(f'waiting for {wanted} on standard input; Control-D ends it')
        return sys.stdin.buffer.read()
    except OSError as wrong:
        raise Unread(f'{shown(name)}: {wrong.strerror}') from wrong


def write(name: str, data: bytes | str) -> None:
    """to a file or to standard output, whole and flushed"""
    out = data.encode() if isinstance(data, str) else data
    try:
        if name != '-':
            Path(name).write_bytes(out)
            return
        if sys.stdout is None:
            raise Failed('standard output is closed')
        sys.stdout.buffer.write(out)
        sys.stdout.buffer.flush()
    except OSError as wrong:
        raise Failed(f'{"standard output" if name == "-" else name}: {wrong.strerror}') from wrong
