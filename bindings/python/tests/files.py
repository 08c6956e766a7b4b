"""Where the tests find what is stored, and what is stored there. vectors/README.md has the formats."""
from __future__ import annotations

from collections.abc import Iterator
from dataclasses import dataclass
from pathlib import Path

ROOT = Path(__file__).resolve().parents[3]
EXAMPLES = ROOT / 'examples'
PICTURES = ROOT / 'docs' / 'pictures'
VECTORS = ROOT / 'vectors'
NAMES = sorted(path.stem for path in EXAMPLES.glob('*.txt'))


@dataclass
class StoredMap:
    name: str
    sheet: bytes
    numbers: dict[str, list[int]]   # labels, tallies, pairs, records, rows


def stored_maps() -> Iterator[StoredMap]:
    lines = [line.split(' ') for line in (VECTORS / 'maps.txt').read_text().splitlines()]
    for first in range(0, len(lines), 8):
        words = {line[0]: line[1:] for line in lines[first:first + 8]}
        numbers = {word: list(map(int, words[word][1:])) for word in ('labels', 'tallies', 'pairs', 'records', 'rows')}
        yield StoredMap(words['map'][0], bytes.fromhex(words['sheet'][1]), numbers)


def stored_sheets() -> Iterator[tuple[bytes, str]]:
    """each sheet, good or damaged, and what keptlist prints for it"""
    lines = iter((VECTORS / 'sheets.txt').read_text().splitlines())
    for line in lines:
        _, _, *digits = line.split(' ')
        count = int(next(lines).removeprefix('prints '))
        yield bytes.fromhex(''.join(digits)), ''.join(f'{next(lines)}\n' for _ in range(count))
