"""Makes vectors/rest.txt: runs to rest, from the Rust called by turns.

    python3 make_rest.py --oracle PROGRAM [--check]

Rounds, rows and the last pass's lists are the oracle's, which is called once for every pass; refusals are those of the table and of request 4. The
rendering in Python must agree with every one, or nothing is written.
"""
import argparse
import os
import random
import sys

import package  # noqa: F401
import rest
import rest_reference
from compare import Oracle
from jenwyllt.unproved import reference, sheet_bytes
from jenwyllt.unproved.hypotenuse import double
from jenwyllt.unproved.reference import Lent, Map, groups

STORED = os.path.join(os.path.dirname(os.path.abspath(__file__)), '..', 'vectors', 'rest.txt')
LONG, SHORT = 220, 60                # runs of two rounds or more, and of one


def room_of(m):
    """records and rows of pairs that the first pass needs"""
    first = reference.results(rest_reference.map_of(m, 1, rest_reference.starting_list(m)))
    return first['regions'], len(first['pairs'])


def refused(r, m):
    """copies of an accepted map that a run refuses: lists that differ, alone and with other faults; too few records and pair rows"""
    records, pairs = room_of(m)
    count = len(m.spans) // 4
    if count:
        k = r.randrange(count)
        turned = list(m.spans)
        turned[4 * k:4 * k + 4] = turned[4 * k + 2:4 * k + 4] + turned[4 * k:4 * k + 2]
        moved = list(m.spans)
        moved[4 * k] += 1 if moved[4 * k] < 8 * m.width else -1
        outside = list(m.spans)
        outside[4 * k] = 8 * m.width + 1
        for spans in (turned, moved, outside, m.spans[4:], m.spans + m.spans[:4]):
            yield Map(0, m.width, m.height, m.cells, spans, m.boundaries, m.anchors), records, pairs
        yield Map(0, m.width, m.height, m.cells, m.spans, m.boundaries[9:], [m.width, 0]), records, pairs
        both = list(m.boundaries)
        both[9 * k] = outside[4 * k]
        yield Map(0, m.width, m.height, m.cells, outside, both, m.anchors), records, pairs
    yield m, records, pairs
    if records:
        yield m, records - 1, pairs
    if pairs:
        yield m, records, pairs - 1
        yield m, records - 1, pairs - 1


def numbers(name, count, values):
    return ' '.join(map(str, (name, count, *values))) + '\n'


def text(oracle, name, m, records, pairs):
    """a case as it is stored: the sheet, the room, the answer, and of an accepted run its lists"""
    lent = reference.lend(m)
    lent.records, lent.pairs = lent.records[:1] * records, [0] * (3 * pairs)
    by_rendering = Lent(*(list(l) for l in (lent.labels, lent.masks, lent.queue, lent.tallies, lent.pairs, lent.records, lent.output)))
    number, value, rounds = rest_reference.run(m, lent, rest.by_oracle(oracle))
    if (number, value, rounds) != rest_reference.run(m, by_rendering) or lent != by_rendering:
        raise ValueError(f'{name}: the rendering differs')
    data = sheet_bytes.sheet_of(m)
    out = f'run {name}\nsheet {len(data)} {data.hex()}\nroom {records} {pairs}\nanswer {number} {value} {rounds}\n'
    if number:
        return out
    kept = rest_reference.rounds_of(m, rest.by_oracle(oracle))[-1][3]
    last = rest.last_partition(oracle, m, kept)
    whole = [[r[0], *(int(double(b)) for b in r[1:5]), *r[5:]] for r in last['records']]
    return out + ''.join((
        numbers('labels', len(last['labels']), last['labels']),
        numbers('tallies', len(last['tallies']), (n for t in last['tallies'] for n in t)),
        numbers('pairs', len(last['pairs']), (n for p in last['pairs'] for n in p)),
        numbers('records', len(whole), (n for r in whole for n in r)),
        numbers('rows', value, lent.output[:5 * value])))


def cases(oracle):
    left = {True: LONG, False: SHORT}
    for k, m in rest.drawn(100000, 'stored'):
        if len(m.cells) > 400:
            continue
        m.pass_number = k % 5
        longer = len(rest_reference.rounds_of(m, rest_reference.kept_positions)) > 1
        if left[longer]:
            left[longer] -= 1
            yield f'{k}', m, *room_of(m)
            if k % 7 == 0:
                for i, case in enumerate(refused(random.Random(f'refused/{k}'), m)):
                    yield f'{k}-{i}', *case
        if not any(left.values()):
            return


def main():
    a = argparse.ArgumentParser(description=__doc__, formatter_class=argparse.RawDescriptionHelpFormatter)
    a.add_argument('--oracle', required=True)
    a.add_argument('--check', action='store_true')
    options = a.parse_args()
    oracle = Oracle(options.oracle, 'full')
    made = ''.join(text(oracle, *case) for case in cases(oracle))
    oracle.close()
    if options.check:
        with open(STORED) as file:
            return int(file.read() != made)
    with open(STORED, 'w') as file:
        file.write(made)
    return 0


if __name__ == '__main__':
    sys.exit(main())
