"""Makes vectors/ranked.txt: ranked junction lists, from the Rust.

    python3 make_ranked.py --oracle PROGRAM [--check]

The order, the choice and each conflict are the oracle's, which sees them from inside the Rust's file. The rendering in Python must agree with every one, or
nothing is written. Maps are drawn by generate.py and chosen by what happens in them: which kind refuses which, and by which of the Rust's tests.
"""
import argparse
import os
import sys
from collections import Counter

import package  # noqa: F401
import generate
from compare import Oracle
from jenwyllt.partition import Pair, Partition
from jenwyllt.ranked import RankedProposal, conflict_words
from jenwyllt.unproved import ranked as ranked_reference
from jenwyllt.unproved import reference, sheet_bytes

STORED = os.path.join(os.path.dirname(os.path.abspath(__file__)), '..', 'vectors', 'ranked.txt')
DRAWN, EACH, LARGE = 12000, 12, 12
KINDS = ('union', 'bridge')


def happenings(m, rows):
    """what happens in a map: of each refused proposal its kind, that of the one it names, the test that it fails, and whether it names another than the last
    taken before it"""
    if not rows:
        return {'no proposal' if len(m.boundaries) // 9 == len(m.spans) // 4 else 'unequal counts'}
    pairs = [Pair(*each) for each in reference.results(m)['pairs']]
    proposals = [RankedProposal.of_numbers(row) for row in rows]
    found = {f'{KINDS[row[0]]} taken' for row in rows if row[4]}
    for rank, (kind, _, _, _, taken, by) in enumerate(rows):
        if not taken:
            test = ' '.join(word for word in conflict_words(rank, proposals, Partition(0, [], [], pairs)).split() if word.isalpha())
            last = max(k for k in range(rank) if rows[k][4])
            found.add(f'{KINDS[rows[by][0]]} refuses {KINDS[kind]}, {test}, {"the last" if by == last else "not the last"}')
    return found


def chosen():
    """(name, map): as many for each happening as there is room for, and large maps"""
    met = Counter()
    for k, family, m in generate.maps(DRAWN, 'ranked'):
        m.pass_number = 3
        if reference.early_refusal(m, reference.lend(m), True):
            continue
        happen = happenings(m, ranked_reference.rows_of(m))
        if any(met[name] < EACH for name in happen):
            met.update(happen)
            yield f'{family}-{k}', m
    for k, m in generate.large_maps(LARGE, 'ranked'):
        m.pass_number = 3
        if not reference.early_refusal(m, reference.lend(m), True):
            met.update(happenings(m, ranked_reference.rows_of(m)))
            yield f'large-{k}', m
    for name, count in sorted(met.items()):
        print(f'{count:5} {name}', file=sys.stderr)


def text(oracle, name, m):
    """a map as it is stored: the sheet, the answer, the list and the rows kept"""
    data = sheet_bytes.sheet_of(m)
    theirs = oracle.ask(data)
    kept, rows = reference.results(m)['rows'], ranked_reference.rows_of(m)
    if theirs != {'number': 0, 'value': len(kept), 'proposals': len(rows), 'ranked': [list(r) for r in rows], 'rows': [list(r) for r in kept]}:
        raise ValueError(f'{name}: the rendering differs')
    lists = ''.join(' '.join(map(str, (word, len(those), *(n for row in those for n in row)))) + '\n' for word, those in (('ranked', rows), ('rows', kept)))
    return f'map {name}\nsheet {len(data)} {data.hex()}\nanswer 0 {len(kept)} {len(rows)}\n{lists}'


def main():
    a = argparse.ArgumentParser(description=__doc__, formatter_class=argparse.RawDescriptionHelpFormatter)
    a.add_argument('--oracle', required=True)
    a.add_argument('--check', action='store_true', help='whether what is stored is what is made')
    options = a.parse_args()
    oracle = Oracle(options.oracle, 'ranked')
    made = ''.join(text(oracle, name, m) for name, m in chosen())
    oracle.close()
    if options.check:
        with open(STORED) as f:
            sys.exit(0 if f.read() == made else 'vectors/ranked.txt is not what is made')
    with open(STORED, 'w') as f:
        f.write(made)


main()
