"""Makes vectors/accession.txt from the rendering in accession_reference.py; vectors/README.md has the format.

    python3 make_accession.py [FILE]
"""
import argparse
import random
from pathlib import Path

from accession_lists import MAPS, MOST, damaged, flat, kept
from accession_reference import report_line

FILE = Path(__file__).resolve().parents[1] / 'vectors' / 'accession.txt'


def cases():
    """numbers, own number, room"""
    draw = random.Random(7)
    for count in range(9):
        for _ in range(6):
            records = kept(draw, count, draw.sample(MAPS, draw.choice((1, 2, 3))))
            numbers = flat(records)
            for own in [record[0] for record in records] + [0, MOST, count + 200]:
                for room in sorted({0, max(len(report_line(numbers, own, 4 * count)[2]) - 1, 0), len(report_line(numbers, own, 4 * count)[2]), 4 * count + 3}):
                    yield numbers, own, room
            for cut in (1, 2, 3):
                if numbers:
                    yield numbers[:-cut], records[0][0], len(numbers)
    for count in (1, 2, 4, 6):
        for _ in range(3):
            records = kept(draw, count, draw.sample(MAPS, 2))
            for i in range(count):
                for changed in damaged(records, i):
                    yield flat(changed), records[0][0], draw.choice((0, 4 * count))
                    if draw.random() < 0.05:
                        yield flat(changed)[:-1], records[0][0], 4 * count


def main():
    parser = argparse.ArgumentParser(description=__doc__, formatter_class=argparse.RawDescriptionHelpFormatter)
    parser.add_argument('file', nargs='?', default=FILE, type=Path)
    file = parser.parse_args().file
    lines = []
    for numbers, own, room in cases():
        number, value, rows = report_line(numbers, own, room)
        lines.append('; '.join(' '.join(map(str, part)) for part in (numbers, (own, room), (number, value), rows)).rstrip())
    lines = list(dict.fromkeys(lines))
    file.write_text(''.join(f'{line}\n' for line in lines))
    print(len(lines), 'cases')


if __name__ == '__main__':
    main()
