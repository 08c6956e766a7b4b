"""Running to rest: the rendering in Python, and the library, against the Rust called by turns.

    python3 rest.py COUNT [--seed S] [--library] --oracle PROGRAM

COUNT maps of generate.py, their lists in any order and turned at will. Of each the rounds, what is kept before each pass, and the last pass's
partition are compared: the rendering's passes against the oracle's, which is called once for every pass of every round. With --library the call of the
library is made too, on lists of odd contents and lengths, some too short, and some maps have spans that are not their boundaries: its answer and every
list at exit are compared with the rendering's, whose rows are the oracle's. The first differences are printed. Exit code 0 if there is none.
"""
import argparse
import random
import sys
from collections import Counter

import package  # noqa: F401
import generate
import rest_reference
from compare import Oracle, damaged_lists, odd_lists
from jenwyllt._library import U8, U16, U32, U64, lent
from jenwyllt.kept import Region
from jenwyllt.rest import RUN_TO_REST
from jenwyllt.unproved import reference, sheet_bytes
from jenwyllt.unproved.hypotenuse import bits, double
from jenwyllt.unproved.reference import LENT, groups


def one_list(r, m):
    """the map with its boundaries as spans, in any order and turned at will"""
    entries = [list(nine) for nine in groups(m.boundaries, 9)]
    if r.random() < 0.5:
        r.shuffle(entries)
    for nine in entries:
        if r.random() < 0.3:
            nine[:4] = nine[2:4] + nine[:2]
    m.boundaries = [n for nine in entries for n in nine]
    m.spans = [n for nine in entries for n in nine[:4]]
    return m


def drawn(count, seed):
    """(number, map): maps that a run accepts"""
    for k, _, m in generate.maps(count, seed):
        m = one_list(random.Random(f'rest/{seed}/{k}'), m)
        if not rest_reference.refusal_before(m, reference.lend(m)):
            yield k, m


def by_oracle(oracle):
    """a pass as the oracle runs it: the positions that are kept, in row order"""
    def run_pass(m):
        answer = oracle.ask(sheet_bytes.sheet_of(m))
        if answer['number']:
            raise ValueError(answer)
        return [row[0] for row in answer['rows']]
    return run_pass


def last_partition(oracle, m, kept):
    """what the oracle answers for pass 3 on what is kept"""
    answer = oracle.ask(sheet_bytes.sheet_of(rest_reference.map_of(m, 3, kept)))
    return {name: answer[name] for name in ('labels', 'tallies', 'pairs', 'records')}


def rendered_partition(m, kept):
    out = reference.results(rest_reference.map_of(m, 3, kept))
    return {'labels': out['labels'], 'tallies': [list(t) for t in out['tallies']], 'pairs': [list(p) for p in out['pairs']],
            'records': [[*r[:7], *r[7]] for r in out['records']]}


# ---- the library

def record_lent(numbers):
    *first, counts = numbers
    cells, *edges, ramps, mask = first
    return Region(cells, *map(double, edges), ramps, mask, tuple(counts))


def record_numbers(record):
    return (record.cells, *(bits(getattr(record, edge)) for edge in ('min_x', 'min_y', 'max_x', 'max_y')), record.ramp_cells, record.elevations,
            tuple(record.elevation_counts))


def called(m, lists):
    """what the library answers and leaves in a copy of these lists"""
    kinds = U32, U16, U32, U32, U32, None, U64
    given = [lent(Region, map(record_lent, lists.records)) if kind is None else lent(kind, getattr(lists, name)) for kind, name in zip(kinds, LENT)]
    answer = RUN_TO_REST(m.width, m.height, lent(U8, bytes(m.cells)), *(lent(U64, each) for each in (m.spans, m.boundaries, m.anchors)), *given)
    left = [list(map(record_numbers, each)) if kind is None else each[:] for kind, each in zip(kinds, given)]
    return (answer.number, answer.value, answer.rounds), reference.Lent(*left)


def library_differs(r, m, run_pass):
    """the number that the library answers, and whether that, its places or its lists differ from the rendering's"""
    if r.random() < 0.1 and m.spans:
        k = 4 * r.randrange(len(m.spans) // 4)
        m.spans = r.choice((m.spans[:k] + m.spans[k + 2:k + 4] + m.spans[k:k + 2] + m.spans[k + 4:], m.spans[:k], m.spans + m.spans[k:k + 4]))
    elif r.random() < 0.1:
        m = damaged_lists(r, m)
    lists = odd_lists(r, m)
    if r.random() < 0.8:
        lists.pairs, lists.records = [9] * (3 * 400), lists.records[:1] * 200 or [reference.EMPTY_RECORD] * 200
    answer, left = called(m, lists)
    expected = rest_reference.run(m, lists, run_pass)
    return answer[0], answer != expected or left != lists


def main():
    a = argparse.ArgumentParser(description=__doc__, formatter_class=argparse.RawDescriptionHelpFormatter)
    a.add_argument('count', type=int)
    a.add_argument('--seed', default='1')
    a.add_argument('--library', action='store_true')
    a.add_argument('--oracle', required=True)
    options = a.parse_args()
    oracle, rounds, answers, different = Oracle(options.oracle, 'full'), Counter(), Counter(), 0
    for k, m in drawn(options.count, options.seed):
        ours, theirs = (rest_reference.rounds_of(m, run_pass) for run_pass in (rest_reference.kept_positions, by_oracle(oracle)))
        rounds[len(ours)] += 1
        if ours != theirs or rendered_partition(m, ours[-1][3]) != last_partition(oracle, m, theirs[-1][3]):
            different += 1
            if different < 5:
                print('differs:', options.seed, k)
        if options.library:
            number, differs = library_differs(random.Random(f'lists/{options.seed}/{k}'), m, by_oracle(oracle))
            answers[number] += 1
            different += differs
            if differs and different < 5:
                print('the library differs:', options.seed, k)
    oracle.close()
    print(sum(rounds.values()), 'maps,', sum(n for r, n in rounds.items() if r > 1), 'of two rounds or more,', different, 'different;', dict(sorted(rounds.items())))
    if options.library:
        print('answers of the library:', dict(sorted(answers.items())))
    return int(different > 0)


if __name__ == '__main__':
    sys.exit(main())
