"""Makes the stored answers in vectors/.

    python3 make_vectors.py --oracle PROGRAM [FOLDER]

maps.txt and sheets.txt are what the Rust answers (oracle `full` and `kept`); the rendering in Python must agree with every one, or nothing is
written. hypotenuse.txt is worked out here by whole numbers (hypotenuse.py), apart from the oracle's own; the oracle must agree too.
"""
import argparse
import math
import os
import random
import subprocess
from collections import Counter

import package  # noqa: F401
import compare
import damage
import edges
import generate
from jenwyllt.unproved import reference, sheet_bytes
from jenwyllt.unproved.hypotenuse import GREATEST, LEAST, SIGN, answer, bits, units
from jenwyllt.unproved.reference import Map, groups

HERE = os.path.dirname(os.path.abspath(__file__))
TAKEN = ' taken '                                # stands in the notes on proposals that are taken
LEAST_TAKEN = 24


# ---- maps

def boundaries_of(entries):
    return [n for e in entries for n in e], [n for e in entries for n in e[:4]]


def ordinary(x1, y1, x2, y2, width=8.0):
    return (x1, y1, x2, y2, bits(width), 0, 0, 0, 0)


def ramp(x1, y1, x2, y2, kind, number=7, width=8.0, lower=0, upper=1):
    return (x1, y1, x2, y2, bits(width), kind, number, lower, upper)


def named(pass_number, width, height, cells, entries, anchors=()):
    boundaries, spans = boundaries_of(entries)
    return Map(pass_number, width, height, list(cells), spans, boundaries, list(anchors))


def chosen_by_hand():
    """the cases of the scope paper, and one map for each error that a porter would be drawn to"""
    j = [ordinary(16, 8, 16, 16), ordinary(8, 8, 8, 16), ordinary(8, 8, 16, 8), ordinary(24, 8, 24, 16), ordinary(16, 16, 24, 16)]
    yield 'case-J', named(3, 4, 3, [0, 1, 0, 0, 1, 1, 1, 1, 0, 0, 1, 0], j)
    mouth = [ordinary(8, 0, 8, 8), ramp(16, 0, 16, 8, 1)]
    yield 'mouth', named(1, 3, 1, [1, 1, 1], mouth)
    yield 'mouth-outer-anchored', named(1, 3, 1, [1, 1, 1], mouth, [0, 0])
    yield 'mouth-inner-anchored', named(1, 3, 1, [1, 1, 1], mouth, [1, 0])
    yield 'interior', named(2, 4, 1, [1, 3, 1, 1], [ramp(8, 0, 8, 8, 1), ordinary(16, 0, 16, 8), ramp(24, 0, 24, 8, 2)])
    yield 'ranked-by-endpoints', named(3, 3, 3, [1, 0, 1, 1, 1, 1, 0, 1, 0], [ordinary(16, 8, 16, 16), ordinary(8, 8, 8, 16), ordinary(0, 8, 8, 8),
                                                                             ordinary(16, 8, 24, 8), ordinary(8, 16, 16, 16)])
    yield 'triangle-meets-occupied', named(1, 3, 4, [1, 0, 1, 1, 1, 1, 0, 1, 1, 0, 1, 1], [ordinary(16, 0, 16, 32), ramp(16, 0, 24, 32, 1),
                                                                                        ordinary(8, 8, 8, 16, 16.0), ramp(0, 8, 8, 8, 1, 8)], [1, 1])
    # the mouth is exactly 224 from the ramp; rounded it is beyond, unless the ramp is turned
    for name, ends in (('beyond-224-by-rounding', (0, 128, 55, 176)), ('within-224-turned', (55, 176, 0, 128))):
        m = named(1, 26, 22, [0] * (26 * 22), [ordinary(8, 0, 8, 8, 16.0), ramp(16, 0, 16, 8, 1)])
        m.cells[:3] = [1, 1, 1]
        m.boundaries[:4], m.boundaries[9:13] = [194, 0, 200, 0], ends
        yield name, m
    yield 'no-entries', Map(1, 1, 1, [0])
    yield 'unequal-counts', Map(3, 1, 1, [1], [0, 0, 8, 8], [8, 8, 0, 0, bits(8.0), 0, 0, 0, 0, 0, 0, 0, 0, bits(8.0), 0, 0, 0, 0])


def features(m):
    """what the rendering notes of a map under its own pass"""
    notes = Counter()
    reference.results(m, notes)
    return {name for name in notes if not name.startswith(('nearby: parallel', 'overlay: over'))}


def generated():
    """small maps, so chosen that each thing that can be noted is noted by several, and each kind of proposal is taken by two dozen"""
    seen, out = Counter(), []
    pool = []
    for k, family, m in generate.maps(12000, 'vectors'):
        for m.pass_number in (1, 2, 3):
            if reference.early_refusal(m, reference.lend(m), True):
                break
            copy = Map(m.pass_number, m.width, m.height, list(m.cells), list(m.spans), list(m.boundaries), list(m.anchors))
            pool.append((f'{family}-{k}-{m.pass_number}', copy, features(copy)))
    pool.sort(key=lambda item: len(item[1].cells) + 12 * len(item[1].spans) // 4)
    for least, among in ((1, ''), (3, ''), (6, ''), (10, ''), (16, TAKEN), (LEAST_TAKEN, TAKEN)):
        for name, m, found in pool:
            if any(among in f and seen[f] < least for f in found):
                out.append((name, m))
                seen.update(found)
                found.clear()
    assert min(seen[f] for f in seen if TAKEN in f) >= LEAST_TAKEN
    return out, seen


def map_text(name, m, full):
    sheet = sheet_bytes.sheet_of(m)
    lines = [f'map {name}', f'sheet {len(sheet)} {sheet.hex()}', f'answer {full["number"]} {full["value"]}']

    def put(word, rows):
        numbers = [str(n) for row in rows for n in row]
        lines.append(' '.join([word, str(len(rows))] + numbers))

    put('labels', [[n] for n in full['labels']])
    put('tallies', full['tallies'])
    put('pairs', full['pairs'])
    put('records', [[r[0], *(int(reference.double(b)) for b in r[1:5]), *r[5:]] for r in full['records']])
    put('rows', full['rows'])
    return '\n'.join(lines) + '\n'


# ---- sheets

def damaged_sheets(wanted):
    """each kind of damage and each answer several times, the short ones first"""
    pool = sorted(((what, data) for _, what, data in damage.sheets(generate.small_plan, 6000, 'vectors')), key=lambda item: len(item[1]))
    seen, out = Counter(), []
    for most in (1, 2, 4, 8):
        for what, data in pool:
            printed = sheet_bytes.keptlist(data).split()
            keys = [what, ' '.join(printed[:2] + ['later'] * (printed[3] != '0')) if printed[0] == 'refused' else 'kept']
            if len(data) <= 2500 and len(out) < wanted and all(seen[k] < (most if k == what else 8 * most) for k in keys):
                out.append((what, data))
                seen.update(keys)
    return out


LONG_NUMBERS = {                                 # in place of a number, whose value some of them keep
    'tenth byte above 1': lambda n: bytes([0x80] * 9 + [2]),
    'eleven groups': lambda n: bytes([0x81] + [0x80] * 9 + [0]),
    'ends in the tenth': lambda n: bytes([0xFF] * 9 + [0x80]),
    'padded': lambda n: sheet_bytes.number_bytes(n, 9 - len(sheet_bytes.number_bytes(n))),
}


def sheets_of(m):
    """a map's sheet cut short at each byte, with bytes left over, and with each of its numbers written long"""
    numbers = sheet_bytes.sheet_numbers(m)
    parts = [sheet_bytes.number_bytes(n) for n in numbers]
    data = b''.join(parts)
    for end in range(len(data) + 1):
        yield 'cut short', data[:end]
    for tail in (b'\0', b'\x80', bytes(20), data):
        yield 'left over', data + tail
    for k, n in enumerate(numbers):
        for what, long in LONG_NUMBERS.items():
            yield what, b''.join(parts[:k]) + long(n) + b''.join(parts[k + 1:])
            if what == 'ends in the tenth':
                yield what, b''.join(parts[:k]) + long(n)[:9]


def chosen_sheets(maps):
    """sheets of one map in all ways, damaged ones, and every tenth map as it is"""
    yield from sheets_of(maps[0][1])
    yield from damaged_sheets(280)
    yield from ((name, sheet_bytes.sheet_of(m)) for name, m in maps[::10])


# ---- the hypotenuse

def at(exponent, significand):
    """bits of significand * 2^(exponent - 52), the significand from 2^52 to 2^53 - 1"""
    return ((exponent + 1023) << 52) | (significand - (1 << 52))


def scaled(n, exponent):
    """bits of n * 2^exponent, where that is a double"""
    x = math.ldexp(float(n), exponent)
    assert int(math.ldexp(x, -exponent)) == n
    return bits(x)


def ties(r, count):
    """triples whose hypotenuse has 54 bits and is odd: halfway between two doubles. A primitive one is 1 mod 4 and goes down; three or seven
    times a primitive one is 3 mod 4 and goes up."""
    out = []
    while len(out) < count:
        factor = r.choice((1, 3, 7))
        top = math.isqrt((1 << 54) // factor)
        m = r.randrange(top // 2, top)
        n = r.randrange(1, m)
        c, a, b = factor * (m * m + n * n), factor * (m * m - n * n), factor * 2 * m * n
        if not (1 << 53) <= c < (1 << 54) or c % 2 == 0 or a >= 1 << 53 or b >= 1 << 54 or (b >= 1 << 53 and b % 2):
            continue
        exponent = r.randint(-60, -39)
        pair = [scaled(a, exponent), scaled(b, exponent)]
        r.shuffle(pair)
        code, root = answer(*pair)
        if code:
            continue
        assert abs(units(root) - (c << (1074 + exponent))) == 1 << (1074 + exponent), (a, b, c)
        out.append(tuple(pair))
    return out


def pairs(r):
    """(what, x, y) as bits"""
    one = bits(1.0)
    for x, y in ((3.0, 4.0), (0.0, 0.0), (1.0, 1.0), (0.0, -0.0), (-0.0, -0.0), (-3.0, 4.0), (0.1, 1e-10), (5.0, 12.0), (224.0, 0.0), (384.0, 0.5)):
        yield 'named', bits(x), bits(y)
    yield 'tie', 0x408b95146a80e448, 0x40c21f1b4712be68
    yield 'tie', 0x40b7735837b91fd3, 0x40c006248ed7952e
    for pair in ties(r, 600):
        yield ('tie', *pair)
        k = r.randrange(2)                       # and beside it
        beside = list(pair)
        beside[k] += r.choice((-1, 1))
        yield ('beside a tie', *beside)
    for _ in range(1500):                        # exact: triples, scaled
        m = r.randrange(2, 1 << r.randint(2, 25))
        n = r.randrange(1, m)
        k = r.randint(-60, -38)
        a, b = m * m - n * n, 2 * m * n
        if a.bit_length() <= 53 and b.bit_length() <= 53:
            yield 'exact', scaled(a, k), scaled(b, k)
    for x in (0, LEAST, GREATEST, GREATEST - 1, LEAST + 1, one):       # the ends of the range, with and without signs
        for y in (0, LEAST, GREATEST, GREATEST - 1, LEAST + 1, one):
            for signs in (0, 1, 2, 3):
                yield 'end', x | (SIGN if signs & 1 else 0), y | (SIGN if signs & 2 else 0)
    beyond = [LEAST - 1, GREATEST + 1, 1, (1 << 52) - 1, 1 << 52, 0x7FE << 52, (0x7FF << 52) - 1, 0x7FF << 52, (0x7FF << 52) + 1, 0x7FF8 << 48, (1 << 63) - 1]
    for x in beyond:                             # refused
        for y in [0, one, LEAST, GREATEST] + beyond:
            yield 'refused', x, y
            yield 'refused', y | SIGN, x
            yield 'refused', x | SIGN, y
    ones, top = (1 << 53) - 1, 1 << 52
    for gap in range(80):                        # every gap of exponents, with the ends of the significands
        highs = {15, gap - 64, min(14, gap)} | {r.randint(gap - 64, 15) for _ in range(3)}
        for high in sorted(highs):
            low = high - gap
            for sx, sy in ((top, top), (ones, ones), (top, ones), (ones, top), (top + 1, top), (r.randrange(top, 2 * top), r.randrange(top, 2 * top)),
                           (r.randrange(top, 2 * top), top), (top, r.randrange(top, 2 * top)), (r.randrange(top, 2 * top), ones),
                           (r.randrange(top, 2 * top), r.randrange(top, 2 * top))):
                if high == 15:                   # 2^15 alone has this exponent
                    sx = top
                x, y = at(high, sx), at(low, top if low == 15 else sy)
                yield (f'gap {gap}', x, y) if r.random() < 0.5 else (f'gap {gap}', y, x)
    for _ in range(5000):                        # what the passes ask: halves
        yield 'halves', bits(r.choice((-1, 1)) * r.randint(0, 16384) / 2), bits(r.choice((-1, 1)) * r.randint(0, 16384) / 2)
    made = 0
    while made < 3000:                           # and differences from a point to the foot on a segment
        px, py, ax, ay, bx, by = (r.randint(0, r.choice((64, 512, 8192))) for _ in range(6))
        n = float((bx - ax) ** 2 + (by - ay) ** 2)
        if n == 0.0:
            continue
        t = reference.clamp((float(px - ax) * float(bx - ax) + float(py - ay) * float(by - ay)) / n, 0.0, 1.0)
        yield 'foot', bits(px - (ax + t * (bx - ax))), bits(py - (ay + t * (by - ay)))
        made += 1
    for _ in range(6500):
        x, y = (at(r.randint(-64, 14), r.randrange(top, 2 * top)) | r.choice((0, SIGN)) for _ in range(2))
        yield 'any', x, y


def ask_hypot(program, rows):
    text = ''.join(f'{x:016x} {y:016x}\n' for _, x, y in rows)
    out = subprocess.run([program, 'hypot'], input=text.encode(), stdout=subprocess.PIPE, check=True).stdout.decode().split('\n')
    return [(13, 0) if line.startswith('refused') else (0, int(line, 16)) for line in out if line]


def main():
    a = argparse.ArgumentParser()
    a.add_argument('--oracle', required=True)
    a.add_argument('folder', nargs='?', default=os.path.join(HERE, '../vectors'))
    options = a.parse_args()
    full, kept = compare.Oracle(options.oracle, 'full'), compare.Oracle(options.oracle, 'kept')

    maps, seen = generated()
    maps = list(chosen_by_hand()) + maps + list(edges.corner_maps('vectors'))
    texts = []
    for name, m in maps:
        theirs = full.ask(sheet_bytes.sheet_of(m))
        assert theirs == compare.full_answer(m) and theirs['number'] == 0, name
        texts.append(map_text(name, m, theirs))

    sheets = []
    for what, data in chosen_sheets(maps):
        theirs = kept.ask(data)
        assert theirs == sheet_bytes.keptlist(data), what
        lines = theirs.split('\n')[:-1]
        sheets.append(f'sheet {len(data)} {data.hex()}\nprints {len(lines)}\n' + theirs)
    full.close()
    kept.close()

    rows, known = [], set()
    for what, x, y in pairs(random.Random('hypotenuse')):
        if (x, y) not in known:
            known.add((x, y))
            rows.append((what, x, y))
    answers = [answer(x, y) for _, x, y in rows]
    assert answers == ask_hypot(options.oracle, rows)

    os.makedirs(options.folder, exist_ok=True)
    for name, text in (('maps.txt', ''.join(texts)), ('sheets.txt', ''.join(sheets)),
                       ('hypotenuse.txt', ''.join(f'{x:016x} {y:016x} {code} {root:016x}\n' for (_, x, y), (code, root) in zip(rows, answers)))):
        with open(os.path.join(options.folder, name), 'w') as f:
            f.write(text)
        print(f'{name}: {len(text)} bytes')
    print(f'{len(maps)} maps, {len(sheets)} sheets, {len(rows)} pairs:', ', '.join(f'{k} {n}' for k, n in Counter(w.split()[0] for w, _, _ in rows).items()))
    up = sum(units(root) ** 2 > units(x) ** 2 + units(y) ** 2 for (w, x, y), (_, root) in zip(rows, answers) if w == 'tie')
    print(f'ties up {up};', f'{sum(code == 13 for code, _ in answers)} refused; gaps with pairs: {len({w for w, _, _ in rows if w.startswith("gap")})}')
    for name in sorted(seen):
        if name.startswith('pass') or name.startswith('edge'):
            print(f'{seen[name]:5} {name}')


if __name__ == '__main__':
    main()
