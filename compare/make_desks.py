"""Makes vectors/desks.txt: two desks over one partition, from two runs of the Rust.

    python3 make_desks.py --oracle PROGRAM [--check]

What an accepted desk keeps, and the shared lists beside it, are the oracle's answers to the map with that desk's lists alone; refusals are those of the
table and of request 9, 5 and 6 the oracle's to the map with no boundaries and no anchors. The rendering in Python must agree with every one, or nothing
is written.
"""
import argparse
import os
import sys

import package  # noqa: F401
import desks_equal
import desks_lists
import desks_reference
from compare import Oracle
from jenwyllt.unproved import sheet_bytes
from jenwyllt.unproved.hypotenuse import double
from jenwyllt.unproved.reference import LENT, Map

STORED = os.path.join(os.path.dirname(os.path.abspath(__file__)), '..', 'vectors', 'desks.txt')
CASES, MOST_CELLS, MOST_SPANS = 400, 60, 8
SHARED = LENT[:-1]


def numbers(values):
    return ' '.join(map(str, values))


def asked(oracle, m, pass_number, boundaries, anchors):
    return oracle.ask(sheet_bytes.sheet_of(Map(pass_number, m.width, m.height, m.cells, m.spans, boundaries, anchors)))


def by_oracle(oracle, m, desk):
    """what the oracle answers to the map with this desk's lists alone"""
    answer = asked(oracle, m, desk.pass_number, desk.boundaries, desk.anchors)
    if answer['number']:
        raise ValueError(answer)
    return answer


def flat(rows):
    return [n for row in rows for n in row]


def agree(oracle, m, lent, desk, answer, output):
    """that the oracle has the rows and the shared lists of an accepted desk"""
    said = by_oracle(oracle, m, desk)
    rows, tallies, pairs = flat(said['rows']), flat(said['tallies']), flat(said['pairs'])
    if (answer != (0, said['value']) or output[:len(rows)] != rows or lent.labels[:len(m.cells)] != said['labels'] or lent.tallies[:len(tallies)] != tallies
            or lent.pairs[:len(pairs)] != pairs or [[*r[:7], *r[7]] for r in lent.records[:said['regions']]] != said['records']):
        raise ValueError(f'{m}: the rendering differs')


def agree_refused(oracle, m, answers):
    """that the oracle refuses these spans so"""
    said = asked(oracle, m, 1, [], [])
    if answers != ((said['number'], said['value']),) * 2:
        raise ValueError(f'{m}: the rendering differs')


def left(now, was):
    """the entries up to the last that is not as it was"""
    changed = max((i + 1 for i, (a, b) in enumerate(zip(now, was, strict=True)) if a != b), default=0)
    return now[:changed]


def entry(i):
    """what each lent list holds before the call"""
    return 60000 + i % 5000


def case(oracle, order, m, lent, route, coaching):
    """a case as it is stored"""
    for name in SHARED[:-1]:
        setattr(lent, name, [entry(i) for i in range(min(len(getattr(lent, name)), 200))])
    for desk in (route, coaching):
        desk.output = [entry(i) for i in range(len(desk.output))]
    was, before = lent.copy(), [list(desk.output) for desk in (route, coaching)]
    answers = desks_reference.two_desks(m, lent, route, coaching, bool(order))
    for desk, answer in zip((route, coaching), answers, strict=True):
        if answer[0] == 0:
            agree(oracle, m, lent, desk, answer, desk.output)
    if answers[0][0] in (5, 6):
        agree_refused(oracle, m, answers)
    read = [f'{m.width} {m.height}', numbers(m.cells), numbers(m.spans)]
    for desk, output in zip((route, coaching), before, strict=True):
        read += [str(desk.pass_number), numbers(desk.boundaries), numbers(desk.anchors), str(len(output))]
    room = numbers(len(getattr(was, name)) for name in SHARED)
    records = [[r[0], *(int(double(b)) for b in r[1:5]), *r[5:7], *r[7]] for r in left(lent.records, was.records)]
    filled = [numbers(left(getattr(lent, name), getattr(was, name))) for name in ('labels', 'masks', 'queue', 'tallies', 'pairs')]
    outputs = [numbers(left(desk.output, output)) for desk, output in zip((route, coaching), before, strict=True)]
    return ';'.join((str(order), *read, room, numbers(n for answer in answers for n in answer), *filled, numbers(flat(records)), *outputs)) + '\n'


def cases(oracle):
    made = 0
    for k, _, m, lent, route, coaching in desks_lists.drawn(100000, 'stored', MOST_CELLS):
        if len(m.spans) // 4 > MOST_SPANS or len(m.cells) > MOST_CELLS + 1:
            continue
        yield case(oracle, k % 3, m, lent, route, coaching)
        made += 1
        if made == CASES:
            break
    for call in desks_equal.calls(MOST_CELLS, MOST_SPANS):
        yield case(oracle, *call)


def main():
    a = argparse.ArgumentParser(description=__doc__, formatter_class=argparse.RawDescriptionHelpFormatter)
    a.add_argument('--oracle', required=True)
    a.add_argument('--check', action='store_true')
    options = a.parse_args()
    oracle = Oracle(options.oracle, 'full')
    made = ''.join(cases(oracle))
    oracle.close()
    if options.check:
        with open(STORED) as file:
            return int(file.read() != made)
    with open(STORED, 'w') as file:
        file.write(made)
    return 0


if __name__ == '__main__':
    sys.exit(main())
