"""Pass 3 with unions accepted at 99 percent, against the Rust's own dominant elevations.

    python3 dominance.py COUNT --oracle PROGRAM [--seed S] [--from K] [--definitions] [--library]

COUNT maps, half of them of generate.py and half of its family `near_flat`; of each the labels, records and rows of pass 3 by the rendering in Python, with
--definitions by the definitions run from their own text, and with --library by the proved library, must be the Rust's, and the share of every record must be
exact. Prints how many maps lose a boundary and how many of these to a near flat union. Exit code 0 if nothing differs.
"""
import argparse
import random
import sys
from collections import Counter

import package  # noqa: F401
import compare
import generate
import jenwyllt
from plan import spice
from jenwyllt import unproved
from jenwyllt.unproved import reference, sheet_bytes

NEAR_FLAT = 'pass 3 taken union anchored near flat'


def near_flat_maps(count, seed, first=0):
    for k in range(first, first + count):
        r = random.Random(f'near flat {seed}/{k}')
        yield spice(r, generate.near_flat(r), calm=r.random() < 0.8).finished()


def drawn(count, seed, first=0):
    """accepted maps, for pass 3"""
    for m in [*(m for _, _, m in generate.maps(count // 2, seed, first)), *near_flat_maps(count - count // 2, seed, first)]:
        m.pass_number = 3
        if len(m.spans) <= 1024 and reference.early_refusal(m, reference.lend(m), True) is None:
            yield m


def is_exact(record):
    """the share of a record of the Rust's, by the rendering"""
    cells, counts = record[0], record[7:]
    elevation, share = reference.dominance(reference.RegionStats(cells=cells, elevation_counts=counts))
    percent, remainder = share
    return counts.index(max(counts)) == elevation and counts[elevation] * 100 == percent * cells + remainder and 0 <= remainder < cells


def main():
    a = argparse.ArgumentParser(description=__doc__, formatter_class=argparse.RawDescriptionHelpFormatter)
    a.add_argument('count', type=int)
    a.add_argument('--oracle', required=True)
    a.add_argument('--seed', default='dominance')
    a.add_argument('--from', type=int, default=0, dest='first')
    a.add_argument('--definitions', action='store_true')
    a.add_argument('--library', action='store_true')
    options = a.parse_args()
    oracle = compare.Oracle(options.oracle, 'full')
    definitions = compare.Definitions() if options.definitions else None
    found = Counter()
    for m in drawn(options.count, options.seed, options.first):
        notes = Counter()
        ours = reference.results(m, notes)
        rust = oracle.ask(sheet_bytes.sheet_of(m))
        found['maps'] += 1
        found['lose a boundary'] += len(rust['rows']) < len(m.boundaries) // 9
        near = notes[NEAR_FLAT]
        found['lose one to a near flat union'] += near > 0
        found['near flat unions taken'] += near
        found['regions'] += len(rust['records'])
        same = [list(row) for row in ours['rows']] == rust['rows'] and ours['labels'] == rust['labels'] and all(map(is_exact, rust['records']))
        if definitions:
            found['by the definitions'] += 1
            same = same and [list(row) for row in definitions.results(m)['rows'][2]] == rust['rows']
        if options.library:
            found['by the library'] += 1
            kept = jenwyllt.kept_boundaries(unproved.sheet_of(m))
            same = same and [[row.number, *row.start, *row.end] for row in kept.rows] == rust['rows'] and all(
                jenwyllt.dominance(of.cells, of.elevation_counts) == unproved.dominance(of.cells, of.elevation_counts) for of in kept.records)
        if not same:
            found['differ'] += 1
            print('differs:', sheet_bytes.sheet_of(m).hex())
    oracle.close()
    print(f'seed {options.seed}: ' + ', '.join(f'{n} {name}' for name, n in found.items()))
    return 1 if found['differ'] else 0


if __name__ == '__main__':
    sys.exit(main())
