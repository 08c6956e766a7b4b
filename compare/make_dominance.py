"""Makes vectors/dominance.txt, by the rendering in Python: whole numbers alone, apart from the definitions and the proved code.

    python3 make_dominance.py [--check]
"""
import argparse
import os
import random
import sys

import package  # noqa: F401
from jenwyllt.unproved import reference

STORED = os.path.join(os.path.dirname(os.path.abspath(__file__)), '..', 'vectors', 'dominance.txt')
MOST = 2 ** 32 - 1


def drawn():
    """cells and four counts: none at all, each small region, 99 percent just met and just missed, ties, the ends of 32 bits, and any numbers"""
    yield from ((0, 0, 0, 0, 0), (0, 5, 0, 0, 0), (0, 0, 0, 7, 7), (0, MOST, MOST, MOST, MOST), (1, MOST, 0, 0, 0), (MOST, MOST, 0, 0, 0),
                (MOST, 0, 0, 0, MOST), (MOST, 1, 0, 0, 0), (MOST, MOST - 1, 0, 1, 0), (2, 0, MOST, MOST, 1), (MOST, 0, 0, 0, 0))
    for n in range(1, 7):
        for a in range(n + 1):
            for b in range(n - a + 1):
                yield n, a, b, n - a - b, 0
    r = random.Random('dominance')
    for n in [*range(90, 111), 199, 200, 201, 4096, 1_048_575, 1_048_576]:
        for count in {-(-n * 99 // 100), -(-n * 99 // 100) - 1, n // 2, n}:
            counts = [0] * 4
            e, other = r.sample(range(4), 2)
            counts[e], counts[other] = count, n - count
            yield n, *counts
    for _ in range(400):
        most = r.choice((3, 100, 1_048_576, MOST))
        yield tuple(r.randint(0, most) for _ in range(5))


def line(cells, *counts):
    elevation, share = reference.dominance(reference.RegionStats(cells=cells, elevation_counts=list(counts)))
    return ' '.join(map(str, (cells, *counts, elevation, *((0, 0, 0) if share is None else (1, *share))))) + '\n'


def main():
    parser = argparse.ArgumentParser(description=__doc__, formatter_class=argparse.RawDescriptionHelpFormatter)
    parser.add_argument('--check', action='store_true', help='write nothing; exit 1 if the file is not as it is made')
    check = parser.parse_args().check
    made = ''.join(line(*each) for each in drawn())
    if check:
        with open(STORED) as file:
            return int(file.read() != made)
    with open(STORED, 'w') as file:
        file.write(made)
    return 0


if __name__ == '__main__':
    sys.exit(main())
