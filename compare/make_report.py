"""Makes vectors/report.txt from the count in Python; vectors/README.md has the format.

    python3 make_report.py [FILE]
"""
import argparse
import random
from pathlib import Path

import package  # noqa: F401
import generate
from report import damaged
from jenwyllt.unproved.report import run_of, summed
from jenwyllt.unproved.sheet_bytes import sheet_of

FILE = Path(__file__).resolve().parents[1] / 'vectors' / 'report.txt'
LISTS = 120
REFUSAL_NUMBERS = 25


def numbers(report):
    """the report in the order of `struct jenwyllt_report`, and behind it a mean for each pass: 1, quotient and remainder, or three zeros"""
    passes = [report['passes'][p] for p in (1, 2, 3)]
    figures = [f[name] for f in passes for name in ('accepted', 'boundaries', 'kept', 'removed')]
    means = [n for f in passes for n in ((1, *f['mean']) if f['mean'] else (0, 0, 0))]
    return [report['runs'], *(report['refused'].get(n, 0) for n in range(REFUSAL_NUMBERS)), *figures, report['squared'], *means]


def lines():
    r = random.Random(13)
    drawn = [m for *_, m in generate.maps(8 * LISTS, 13) if len(m.cells) <= 400]
    for k in range(LISTS):
        sheets = [damaged(r, sheet_of(m)) for m in r.sample(drawn, k % 9)] + [b''] * (k % 7 == 6)
        r.shuffle(sheets)
        yield f'{" ".join(data.hex() or "-" for data in sheets)};{" ".join(map(str, numbers(summed(map(run_of, sheets)))))}\n'


def main():
    parser = argparse.ArgumentParser(description=__doc__, formatter_class=argparse.RawDescriptionHelpFormatter)
    parser.add_argument('file', nargs='?', default=FILE, type=Path)
    parser.parse_args().file.write_text(''.join(lines()))


if __name__ == '__main__':
    main()
