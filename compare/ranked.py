"""The ranked junction list: the Rust's ranking, the rendering in Python and the library against one another.

    python3 ranked.py COUNT [--seed S] --oracle PROGRAM [--no-library]

Maps of generate.py are drawn until COUNT have a proposal that reaches the ranking. Of each the answer and the list are compared: the oracle's (which sees the
order, the choice and each conflict from inside the Rust's file), the rendering's, and, with a list of any room, the library's with every other list that it
leaves, those of a call of pass 3 where it has room. The first differences are printed. Exit code 0 if there is none.
"""
import argparse
import itertools
import random
import sys
from collections import Counter

import package  # noqa: F401
import generate
from compare import Oracle
from jenwyllt._library import U8, U16, U32, U64, lent
from jenwyllt.kept import Region
from jenwyllt.ranked import RANKED_JUNCTIONS, RANKED_NUMBERS
from jenwyllt.unproved import ranked as ranked_reference
from jenwyllt.unproved import reference, region_of, sheet_bytes


def drawn(count, seed):
    """(number, map, rows): maps that are accepted, until so many have a proposal; those without one are among them"""
    with_proposals = 0
    for k in itertools.count():
        for _, family, m in generate.maps(1, seed, k):
            m.pass_number = 3
            if reference.early_refusal(m, reference.lend(m), True):
                continue
            rows = ranked_reference.rows_of(m)
            if not rows and k % 10:
                continue
            yield k, m, rows
            with_proposals += bool(rows)
        if with_proposals == count:
            return


def numbers_lent(r, rows):
    """the length of a list with room for the rows, or for too few"""
    return max(0, RANKED_NUMBERS * len(rows) + r.choice((-7, -6, -1, 0, 0, 0, 0, 1, 5, 6, 13)))


def by_library(m, size):
    """what the library answers, and every list that it leaves"""
    was = reference.lend(m, fill=9)
    read = lent(U8, bytes(m.cells)), lent(U64, m.spans), lent(U64, m.boundaries), lent(U64, m.anchors)
    filled = [lent(kind, list(entries)) for kind, entries in ((U32, was.labels), (U16, was.masks), (U32, was.queue), (U32, was.tallies), (U32, was.pairs))]
    records = (Region * len(was.records))(*(region_of(record) for record in was.records))
    output, listed = lent(U64, was.output), lent(U32, [9] * size)
    answer = RANKED_JUNCTIONS(m.width, m.height, *read, *filled, records, output, listed)
    return (answer.number, answer.value, answer.proposals), [each[:] for each in filled], [r.values() for r in records], output[:], listed[:]


def by_rendering(m, size):
    lists, listed = reference.lend(m, fill=9), [9] * size
    answer = ranked_reference.call(m, lists, listed)
    filled = [lists.labels, lists.masks, lists.queue, lists.tallies, lists.pairs]
    return answer, filled, [region_of(record).values() for record in lists.records], lists.output, listed


def main():
    a = argparse.ArgumentParser(description=__doc__, formatter_class=argparse.RawDescriptionHelpFormatter)
    a.add_argument('count', type=int)
    a.add_argument('--seed', default='1')
    a.add_argument('--oracle', required=True)
    a.add_argument('--no-library', action='store_true')
    options = a.parse_args()
    oracle, counts, different = Oracle(options.oracle, 'ranked'), Counter(), 0
    for k, m, rows in drawn(options.count, options.seed):
        counts['maps'] += 1
        counts['with proposals'] += bool(rows)
        counts['proposals'] += len(rows)
        counts['refused'] += sum(not row[4] for row in rows)
        theirs = oracle.ask(sheet_bytes.sheet_of(m))
        kept = reference.results(m)['rows']
        same = theirs == {'number': 0, 'value': len(kept), 'proposals': len(rows), 'ranked': [list(r) for r in rows], 'rows': [list(r) for r in kept]}
        if not options.no_library:
            size = numbers_lent(random.Random(f'ranked/{options.seed}/{k}'), rows)
            ours = by_rendering(m, size)
            counts['answered 21'] += ours[0][0] == 21
            same = same and by_library(m, size) == ours
        if not same:
            different += 1
            if different < 5:
                print('differs:', options.seed, k)
    oracle.close()
    print(', '.join(f'{name} {n}' for name, n in counts.items()) + f'; {different} different')
    sys.exit(1 if different else 0)


if __name__ == '__main__':
    main()
