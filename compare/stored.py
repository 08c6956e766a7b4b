"""Reads the stored answers of vectors/ back. README.md there says what they hold."""
import os

import package  # noqa: F401
from jenwyllt.unproved import sheet_bytes

VECTORS = os.path.join(os.path.dirname(os.path.abspath(__file__)), '../vectors')


def lines_of(name):
    with open(os.path.join(VECTORS, name)) as f:
        return [line.split(' ') for line in f.read().splitlines()]


def maps():
    """name, map, and by its word each list of numbers of the answer"""
    lines = lines_of('maps.txt')
    for first in range(0, len(lines), 8):
        words = {line[0]: line[1:] for line in lines[first:first + 8]}
        stored = {word: [int(n) for n in words[word][1:]] for word in ('labels', 'tallies', 'pairs', 'records', 'rows')}
        yield words['map'][0], sheet_bytes.read(bytes.fromhex(words['sheet'][1])), stored


def sheets():
    """the bytes of each sheet, and the lines that `keptlist` prints for it"""
    lines = lines_of('sheets.txt')
    at = 0
    while at < len(lines):
        (word, size, text), (prints, count) = lines[at:at + 2]
        sheet, end = bytes.fromhex(text), at + 2 + int(count)
        assert (word, prints) == ('sheet', 'prints') and len(sheet) == int(size), size
        yield sheet, [' '.join(line) for line in lines[at + 2:end]]
        at = end
