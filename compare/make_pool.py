"""Makes vectors/pool.txt from the rendering in pool_reference.py; vectors/README.md has the format.

    python3 make_pool.py [FILE]
"""
import argparse
import random
from pathlib import Path

import accession_lists
from pool_lists import BAD, MAPS, asked, damaged, date, kept, term
from pool_reference import day_of, maps_of_day

FILE = Path(__file__).resolve().parents[1] / 'vectors' / 'pool.txt'


def records_of(draw, maps, day):
    """records of these maps, about the day"""
    start = max(day - draw.randrange(60), 0)
    return [[own, number, start + when, superseded] for own, number, when, superseded in accession_lists.kept(draw, draw.randrange(0, 9), maps)]


def flat(entries):
    return [number for entry in entries for number in entry]


def cases():
    """terms, records, date, room"""
    draw = random.Random(8)
    for number in (0, 58, 59, 60, 365, 366, 1461, 36_523, 36_524):
        yield flat([term(5, number, number + 1)]), [], date(number), 4
        yield flat([term(5, number, number + 1)]), [], date(max(number - 1, 0)), 4
    for bad in BAD:
        yield [5, *bad, 2100, 1, 1], [], (2000, 1, 1), 4
        yield [5, 2000, 1, 1, *bad], [], (2000, 1, 1), 4
        yield [5, 2000, 1, 1, 2001, 1, 1], [], bad, 4
    for count in range(12):
        for _ in range(5):
            maps = draw.sample(MAPS, draw.choice((1, 2, 4)))
            terms = kept(draw, count, maps)
            for _ in range(4):
                day = asked(draw, terms)
                records = records_of(draw, maps, day_of(*day) or 0)
                need = len(maps_of_day(flat(terms), flat(records), day, 10 ** 6)[2])
                for room in sorted({0, max(need - 1, 0), need, need + 3}):
                    yield flat(terms), flat(records), day, room
            for cut in (1, 3, 6):
                if terms:
                    yield flat(terms)[:-cut], flat(records), day, 100
                if records:
                    yield flat(terms), flat(records)[:-1], day, 100
            for i in range(len(terms)):
                for changed in damaged(draw, terms, i, maps):
                    if draw.random() < 0.3:
                        yield flat(changed), flat(records), asked(draw, terms), draw.choice((0, 100))
                    if draw.random() < 0.03 and records:
                        yield flat(changed), flat(draw.choice(list(accession_lists.damaged(records, draw.randrange(len(records)))))), day, 100
                    others = [k for k in range(len(terms)) if k != i]
                    if others and draw.random() < 0.2:
                        yield flat(draw.choice(list(damaged(draw, changed, draw.choice(others), maps)))), [], day, 100


def main():
    parser = argparse.ArgumentParser(description=__doc__, formatter_class=argparse.RawDescriptionHelpFormatter)
    parser.add_argument('file', nargs='?', default=FILE, type=Path)
    file = parser.parse_args().file
    lines = []
    for terms, records, day, room in cases():
        number, value, rows = maps_of_day(terms, records, day, room)
        lines.append('; '.join(' '.join(map(str, part)) for part in (terms, records, (*day, room), (number, value), rows)).rstrip())
    lines = list(dict.fromkeys(lines))
    file.write_text(''.join(f'{line}\n' for line in lines))
    print(len(lines), 'cases')


if __name__ == '__main__':
    main()
