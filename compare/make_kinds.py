"""Makes vectors/kinds.txt: sheets of kinds 1 and 3, written, converted and printed, with the rendering's answers.

    python3 make_kinds.py [--check]

A line is `convert BYTES ROOM NUMBER VALUE MADE`, `write PASS WIDTH HEIGHT CELLS BOUNDARIES ANCHORS ROOM NUMBER VALUE MADE` or `prints BYTES LINES`. Bytes stand in
hexadecimal, numbers of a list with commas between, an empty one or one that was not made as -, and the ends of printed lines as /. With --check it says whether the file
is as it is made.
"""
import argparse
import random
from pathlib import Path

import package  # noqa: F401
from kinds import changed, drawn_map
from jenwyllt.unproved import sheet_bytes

FILE = Path(__file__).resolve().parents[1] / 'vectors' / 'kinds.txt'
CASES = 160
LONGEST = 1500                                   # bytes of a stored sheet


def lines():
    r = random.Random(1212)
    left = CASES
    while left:
        m = drawn_map(r)
        kind = r.choice((1, 1, 3))
        data = changed(r, sheet_bytes.sheet_of(m, kind))
        if len(data) > LONGEST:
            continue
        left -= 1
        whole = sheet_bytes.convert_sheet(data, len(data))[1]
        for room in sorted({len(data), len(whole or b''), max(0, len(whole or b'') - 1)}):
            (number, value), made = sheet_bytes.convert_sheet(data, room)
            yield f'convert {data.hex() or "-"} {room} {number} {value} {made.hex() if made is not None else "-"}'
        boundaries = m.boundaries[:-1] if r.random() < 0.1 else m.boundaries
        room = r.choice((0, 60, 4_000))
        (number, value), made = sheet_bytes.write_sheet(m.pass_number, m.width, m.height, m.cells, boundaries, m.anchors, room)
        lists = ' '.join(','.join(map(str, each)) or '-' for each in (boundaries, m.anchors))
        yield (f'write {m.pass_number} {m.width} {m.height} {bytes(m.cells).hex() or "-"} {lists} {room} {number} {value} '
               f'{made.hex() if made is not None else "-"}')
        if kind == 3:
            yield f'prints {data.hex() or "-"} {sheet_bytes.keptlist(data).replace(chr(10), "/")}'


def main():
    parser = argparse.ArgumentParser(description=__doc__, formatter_class=argparse.RawDescriptionHelpFormatter)
    parser.add_argument('--check', action='store_true')
    args = parser.parse_args()
    text = ''.join(line + '\n' for line in lines())
    if args.check:
        current = FILE.read_text() == text
        print(f'{FILE.name} is {"" if current else "not "}as it is made')
        raise SystemExit(not current)
    FILE.write_text(text)
    print(f'{FILE.name}: {text.count(chr(10))} lines')


if __name__ == '__main__':
    main()
