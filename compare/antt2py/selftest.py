#!/usr/bin/env python3
"""Shows that the fast forms of native.py give what the literal translation of the text gives: each by itself on random arguments, the floats
against lib.Ieee's own text, and whole maps in both modes.

    python3 selftest.py [maps]
"""
import math
import os
import random
import struct
import sys

HERE = os.path.dirname(os.path.abspath(__file__))
sys.path[:0] = [HERE, os.path.dirname(HERE)]
sys.setrecursionlimit(1_000_000)

import antt2py                                   # noqa: E402
import native as N                               # noqa: E402

fast, literal = antt2py.module('fast'), antt2py.module('literal')
count = 0


def same(what, a, b, *where):
    global count
    count += 1
    if a != b:
        sys.exit(f'{what}: {a} against {b} at {where}')


def bits(x):
    return struct.unpack('<Q', struct.pack('<d', x))[0]


def scans(r):
    """Scan, Sort, Refusals.firstBelow, RegionRecord.least and most, Partition.mergeAll"""
    n = r.randrange(9)
    test = [r.random() < 0.6 for _ in range(n + 1)]
    numbers = [r.randrange(6) for _ in range(n + 1)]
    l, m = tuple(r.randrange(6) for _ in range(n)), tuple(r.randrange(6) for _ in range(r.randrange(6)))
    holds, value = (lambda i: test[i % len(test)]), (lambda i: numbers[i % len(numbers)])
    maybe = lambda i: (numbers[i % len(numbers)],) if test[i % len(test)] else None
    some = lambda i: (i,) * (numbers[i % len(numbers)] % 3)
    before = lambda a: lambda b: a % 4 < b % 4
    clash = lambda a: lambda b: (a + b) % 3 == 0
    calls = {'Scan': {'any_below_lem': (n, holds), 'all_below': (n, holds), 'count_below': (n, holds), 'collect': (n, maybe), 'gather': (n, some),
                      'any': (holds, l), 'all': (holds, l), 'filter': (holds, l), 'concat_map': (some, l), 'run': (n, len(m)),
                      'member': (3, l), 'add_new': (l, 3), 'add_all': (l, m)},
             'Sort': {'insert': (before, 3, l), 'sort_onto': (before, m, l), 'sort': (before, l), 'select': (clash, m, l), 'list_lt': (l, m)},
             'Refusals': {'first_below_lem': (n, maybe)}, 'RegionRecord': {'least': (n, holds, value), 'most': (n, holds, value)}}
    steps = tuple(literal.R.Pair(r.randrange(8), r.randrange(10)) for _ in range(r.randrange(8)))
    calls['Partition'] = {'merge_all': (tuple(range(8)), steps)}
    for module, functions in calls.items():
        for name, args in functions.items():
            same(f'{module}.{name}', getattr(N, f's_{name}')(*args), getattr(literal, f'{module}__{antt2py.py(name)}')(*args), args)
    for name in antt2py.FAST['Scan'] + antt2py.FAST['Sort']:
        assert name in calls['Scan'] or name in calls['Sort'], name


SPECIAL = [0.0, -0.0, 1.0, -1.0, 8.0, 224.0, 0.75, 1.5, 5e-324, -5e-324, 2.0 ** -1022, 1.7976931348623157e308, math.inf, -math.inf, math.nan]


def a_double(r):
    style = r.random()
    if style < 0.15:
        return r.choice(SPECIAL)
    if style < 0.5:
        return float(r.randint(-9000, 9000)) / r.choice((1, 1, 2, 3))
    if style < 0.8:
        return math.ldexp(r.uniform(-1, 1), r.randint(-70, 20))
    return struct.unpack('<d', struct.pack('<Q', r.getrandbits(64)))[0]


def floats(r):
    x, y = a_double(r), a_double(r)
    if r.random() < 0.1:
        y = r.choice((x, -x))
    lx, ly = (literal.Ieee__of_bits('binary64', bits(v)) for v in (x, y))

    def back(v):
        return literal.Ieee__to_bits('binary64', v)

    def ours(v):
        return 0x7FF8 << 48 if v != v else bits(v)

    for name, python in (('add', N.f_add), ('sub', N.f_sub), ('mul', N.f_mul), ('div', N.f_div)):
        try:
            p = ours(python(0, x, y))
        except OverflowError:
            continue
        same(name, p, back(getattr(literal, f'Ieee__{name}')('binary64', lx, ly)), x, y)
    for name, python in (('lt', N.f_lt), ('le', N.f_le), ('eq', N.f_eq)):
        same(name, python(x, y), getattr(literal, f'Ieee__{name}')(lx, ly), x, y)
    same('neg', ours(N.f_neg(x)), back(literal.Ieee__neg(lx)), x)
    same('fabs', ours(N.s_fabs(x)), back(literal.RampGeometry__fabs(lx)), x)
    same('bits', ours(x), back(lx), x)
    n = r.getrandbits(r.randint(1, 60))
    same('of_int', ours(N.f_of_int(0, n)), back(literal.Ieee__of_int('binary64', n)), n)
    if abs(x) < 1e150 and abs(y) < 1e150:
        same('hypot_of', ours(N.s_hypot_of(x, y)), back(literal.Hypotenuse__hypot_of(lx, ly)), x, y)


def main(words):
    if words == ['--help']:
        print(__doc__.strip())
        return
    if len(words) > 1 or not all(word.isdecimal() for word in words):
        print('usage: selftest.py [maps]', file=sys.stderr)
        sys.exit(2)
    r = random.Random(1)
    for _ in range(3000):
        scans(r)
    for _ in range(3000):
        floats(r)
    print(f'{count} comparisons of fast forms')
    import compare
    import damage
    import generate
    from jenwyllt.unproved import sheet_bytes
    one, two = compare.Definitions(False), compare.Definitions(True)
    wanted, done = int(words[0]) if words else 150, 0
    for k, family, m in generate.maps(100 * wanted, 'selftest'):
        if len(m.cells) > 60 or len(m.boundaries) > 9 * 9 or done == wanted:
            continue
        done += 1
        same('results', one.results(m), two.results(m), k, family)
        lent = compare.odd_lists(random.Random(k), m)
        same('call', one.call(m, lent), two.call(m, lent), k)
        same('partition', one.call(m, lent, False), two.call(m, lent, False), k)
        same('printed', one.keptlist(sheet_bytes.sheet_of(m)), two.keptlist(sheet_bytes.sheet_of(m)), k)
    for k, what, data in damage.sheets(generate.small_plan, wanted, 'selftest'):
        if len(data) < 300:
            same('printed', one.keptlist(data), two.keptlist(data), what)
            same('reading', one.read(data, (100, 20, 90, 10)), two.read(data, (100, 20, 90, 10)), what)
    print(f'{done} maps and {wanted} sheets in both modes, {count} comparisons, all equal')


if __name__ == '__main__':
    main(sys.argv[1:])
