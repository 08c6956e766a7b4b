"""The rendering in Python, the definitions run from their own text, and the Rust, against one another.

    python3 compare.py COUNT [--seed S] [--from K] [--oracle PROGRAM] [--edges N] [--large N] [--no-definitions] [--literal]

COUNT maps of generate.py and N of edges.py, each for all three passes, compared in full: labels, region count, tallies, pairs, region records
and rows; of maps of at most 400 cells also the Rust's partition as crates/rust_partition renders it; the answer and every lent list at exit, with lists that are long enough and with lists that may be too short; the
printed list; and as many damaged sheets: the printed list, and what reading alone answers and fills. The first differences
are printed and minimised. Exit code 0 if there is none.
"""
import argparse
import itertools
import json
import os
import random
import struct
import subprocess
import sys
import time
from collections import Counter

import package  # noqa: F401
import damage
import edges
import generate
from jenwyllt.unproved import reference, sheet_bytes
from jenwyllt.unproved.hypotenuse import bits, double
from jenwyllt.unproved.reference import Lent, LENT, Map, groups

sys.path.insert(0, os.path.join(os.path.dirname(os.path.abspath(__file__)), 'antt2py'))
sys.setrecursionlimit(1_000_000)


# ---- what the rendering gives, in the shape in which all are compared

def all_results(m, notes=None):
    """reference.results with the rows of all three passes"""
    rows = []
    for m.pass_number in (1, 2, 3):
        out = reference.results(m, notes)
        rows.append(out['rows'])
    return {**out, 'rows': rows}


def full_answer(m, room=None):
    """as the oracle's `full`: a dict"""
    lent = reference.lend(m)
    if room:
        records, rows = room
        lent.records = lent.records[:records]
        lent.pairs = [0] * (3 * rows)
    number, value = reference.call(m, lent)
    out = {'number': number, 'value': value}
    if number in (0, 11, 12):
        out['labels'] = lent.labels[:len(m.cells)]
        out['regions'] = max(out['labels'])
    if number in (0, 12):
        out['tallies'] = [list(t) for t in groups(lent.tallies, 2)]
    if number == 0:
        rows = [list(p) for p in groups(lent.pairs, 3)]
        out['pairs'] = [p for p in rows if p[1:] != [0, 0]]
        out['records'] = [[*r[:7], *r[7]] for r in lent.records[:out['regions']]]
        out['rows'] = [list(r) for r in groups(lent.output[:5 * value], 5)]
    return out


def partition_answer(m):
    lent = reference.lend(m)
    number, value = reference.call(m, lent, whole=False)
    out = {'number': number, 'value': value}
    if number in (0, 12):
        out['labels'] = lent.labels[:len(m.cells)]
        out['tallies'] = [list(t) for t in groups(lent.tallies, 2)]
    if number == 0:
        out['pairs'] = [list(p) for p in groups(lent.pairs, 3) if p[1:] != (0, 0)]
    return out


def read_answer(data):
    try:
        m = sheet_bytes.read(data)
    except sheet_bytes.Refused as r:
        return {'number': r.number, 'value': r.place}
    return {'number': 0, 'value': 0, 'pass': m.pass_number, 'width': m.width, 'height': m.height, 'cells': list(m.cells), 'spans': m.spans,
            'boundaries': m.boundaries, 'anchors': m.anchors}


# ---- the definitions, run

class Definitions:
    def __init__(self, literal=False):
        import antt2py
        self.d = antt2py.module('literal' if literal else 'fast')
        self.literal = literal

    def number(self, x):
        """a float of the translation as bits"""
        return self.d.Ieee__to_bits('binary64', x) if self.literal else bits(x)

    def float(self, b):
        return self.d.Ieee__of_bits('binary64', b) if self.literal else double(b)

    def record(self, r):
        return (r.cells, *map(self.number, (r.min_x_lem, r.min_y_lem, r.max_x_lem, r.max_y_lem)), r.ramp_cells_lem, r.elevations, tuple(r.elevation_counts_lem))

    def region(self, t):
        return self.d.R.Region(t[0], *map(self.float, t[1:5]), t[5], t[6], tuple(t[7]))

    def results(self, m):
        """as reference.results, with the rows of all three passes"""
        d = self.d
        d.forget()
        M = d.Grid__map_of(m.width, m.height, tuple(m.cells), tuple(m.spans), tuple(m.boundaries), tuple(m.anchors))
        C = d.Context__context_of(M)
        return {'labels': list(d.Partition__labels(M)), 'regions': d.Partition__region_count(M), 'tallies': groups(d.AtExit__tallies_of(C), 2),
                'pairs': groups(d.Verdict__pair_rows_of(C), 3), 'records': [self.record(r) for r in d.AtExit__records_of(C)],
                'rows': [groups(d.Rows__flat_rows(d.Rows__rows_of(p, M)), 5) for p in (1, 2, 3)]}

    def literal_partition(self, m):
        """what the literal rendering of the Rust's `partition_by_spans` gives (crates/rust_partition)"""
        d = self.d
        d.forget()
        P = d.PartitionBySpans__partition_by_spans(d.Grid__map_of(m.width, m.height, tuple(m.cells), tuple(m.spans), (), ()))
        assert [a.id for a in P.areas] == list(range(1, len(P.areas) + 1)) and sum(a.cell_count for a in P.areas) == sum(c % 2 for c in m.cells)
        return {'labels': list(P.labels), 'regions': len(P.areas), 'tallies': groups(d.PartitionBySpans__tallies_held(P), 2),
                'pairs': groups(d.PartitionBySpans__pair_rows_held(P), 3)}

    def call(self, m, lent, whole=True):
        """the answer, and the lists at exit; behind them the names of what was lent to be read only and is not as it was"""
        d = self.d
        L = d.R.Lent(m.pass_number if whole else 0, m.width, m.height, tuple(m.cells), tuple(m.spans), tuple(m.boundaries) if whole else (),
                     tuple(m.anchors) if whole else (), tuple(lent.labels), tuple(lent.masks), tuple(lent.queue), tuple(lent.tallies), tuple(lent.pairs),
                     tuple(map(self.region, lent.records)) if whole else (), tuple(lent.output) if whole else ())
        answer = (d.Verdict__verdict if whole else d.Verdict__partition_verdict)(L)
        after = (d.AtExit__call_exit if whole else d.AtExit__partition_exit)(L, answer.number)
        lists = [list(getattr(after, name)) for name in LENT]
        lists[5] = [self.record(r) for r in lists[5]]
        changed = [name for name in ('pass_', 'width', 'height', 'cells', 'spans', 'boundaries', 'anchors') if getattr(after, name) != getattr(L, name)]
        return (answer.number, answer.value), lists + changed

    def keptlist(self, data):
        self.d.forget()
        return bytes(self.d.Printed__keptlist(tuple(data))).decode()

    def read(self, data, lengths):
        """number and place, and the four lists at exit, of lent lists full of nines"""
        d = self.d
        reading = d.Sheet__read_verdict(tuple(data), *lengths)
        parts = [lambda s: s.cells, lambda s: s.spans, lambda s: s.boundaries, lambda s: s.anchors]
        return ((d.Sheet__reading_number(reading), d.Sheet__reading_place(reading)),
                [list(d.Sheet__at_exit(part, reading, (9,) * n)) for part, n in zip(parts, lengths)])


# ---- the Rust

class Oracle:
    def __init__(self, program, command, *options):
        self.p = subprocess.Popen([program, command, '--many', *options], stdin=subprocess.PIPE, stdout=subprocess.PIPE)
        self.command = command

    def ask(self, data):
        self.p.stdin.write(struct.pack('<Q', len(data)) + data)
        self.p.stdin.flush()
        line = self.p.stdout.readline().decode()
        if self.command != 'kept':
            return json.loads(line)
        words = line.split()
        if words[0] == 'kept':
            line += ''.join(self.p.stdout.readline().decode() for _ in range(int(words[1])))
        return line

    def close(self):
        self.p.stdin.close()
        self.p.wait()


# ---- lists that are lent for the comparison of verdicts

def odd_lists(r, m):
    """lists of about the needed length, full of nines"""
    lent = reference.lend(m, fill=9)
    short = r.random()
    for name in LENT:
        l = getattr(lent, name)
        if name == 'pairs':
            l = l[:3 * r.choice((0, 1, 2, 4, 8, 40)) + r.choice((0, 0, 1, 2))]
        elif name == 'records':
            l = l[:r.choice((0, 1, 2, 3, 5, 8, len(l)))]
        elif short < 0.15 and r.random() < 0.3 and l:
            l = l[:-1]
        elif r.random() < 0.4:
            l = l + [9] * r.randint(1, 3)
        setattr(lent, name, l)
    lent.records = [(9, bits(9.0), bits(8.0), bits(7.0), bits(6.0), 1, 9, (9, 8, 7, 6))] * len(lent.records)
    return lent


def damaged_lists(r, m):
    """what a sheet cannot hold: cells that are not width by height, unfinished entries, over 256 of them"""
    m = Map(m.pass_number, m.width, m.height, list(m.cells), list(m.spans), list(m.boundaries), list(m.anchors))
    for _ in range(r.choice((1, 1, 2))):
        n = r.randrange(9)
        if n == 0:
            m.cells = m.cells[:-1] if r.random() < 0.5 else m.cells + [1]
        elif n == 1:
            m.spans = m.spans[:-1] if m.spans else [1]
        elif n == 2:
            m.boundaries = m.boundaries[:-r.randint(1, 8)] if m.boundaries else [1, 2]
        elif n == 3:
            m.anchors = m.anchors + [0]
        elif n == 4:
            m.anchors = m.anchors + [0, 0] * r.choice((255, 256, 257))
        elif n == 5:
            m.spans = m.spans + [0, 0, 8, 8] * r.choice((255, 256, 257)) if r.random() < 0.3 else m.spans
        elif n == 6:
            m.pass_number = r.choice((0, 4))
        else:
            r.choice(damage.MAP_DAMAGE[r.choice((1, 5, 6, 7, 8, 9))])(r, m)
    return m


# ---- minimising

def simpler(m):
    """maps with something less"""
    for k in range(len(m.anchors) // 2):
        yield Map(m.pass_number, m.width, m.height, m.cells, m.spans, m.boundaries, m.anchors[:2 * k] + m.anchors[2 * k + 2:])
    for k in range(max(len(m.spans) // 4, len(m.boundaries) // 9)):
        yield Map(m.pass_number, m.width, m.height, m.cells, m.spans[:4 * k] + m.spans[4 * k + 4:], m.boundaries[:9 * k] + m.boundaries[9 * k + 9:], m.anchors)
    for k in range(m.width):
        if m.width > 1:
            yield without_column(m, k)
    for k in range(m.height):
        if m.height > 1:
            yield without_row(m, k)
    for k, c in enumerate(m.cells):
        for less in {0, 1, c & 3, c & 1} - {c}:
            if less < c:
                yield Map(m.pass_number, m.width, m.height, m.cells[:k] + [less] + m.cells[k + 1:], m.spans, m.boundaries, m.anchors)


def shrink(numbers, size, axis, edge, step):
    """pixels beyond the edge come back by a cell"""
    return [n - step if i % size < 4 and i % size % 2 == axis and n >= edge + step else n for i, n in enumerate(numbers)]


def without_column(m, k):
    cells = [c for i, c in enumerate(m.cells) if i % m.width != k]
    anchors = [a for x, y in groups(m.anchors, 2) if x != k for a in (x - (x > k), y)]
    return Map(m.pass_number, m.width - 1, m.height, cells, shrink(m.spans, 4, 0, 8 * k, 8), shrink(m.boundaries, 9, 0, 8 * k, 8), anchors)


def without_row(m, k):
    cells = [c for i, c in enumerate(m.cells) if i // m.width != k]
    anchors = [a for x, y in groups(m.anchors, 2) if y != k for a in (x, y - (y > k))]
    return Map(m.pass_number, m.width, m.height - 1, cells, shrink(m.spans, 4, 1, 8 * k, 8), shrink(m.boundaries, 9, 1, 8 * k, 8), anchors)


def minimised(m, differs):
    again = True
    while again:
        again = False
        for s in simpler(m):
            if reference.early_refusal(s, reference.lend(s), True) is None and differs(s):
                m, again = s, True
                break
    return m


# ---- the run

class Run:
    def __init__(self, options):
        self.options = options
        self.definitions = None if options.no_definitions else Definitions(options.literal)
        self.counts, self.notes, self.differences = Counter(), Counter(), 0
        self.oracles = {}
        if options.oracle:
            for command in ('full', 'partition', 'kept', 'read'):
                self.oracles[command] = Oracle(options.oracle, command)
            self.oracles['short'] = Oracle(options.oracle, 'full', '--records', '3', '--pairs', '4')

    def same(self, what, ours, theirs, where, m=None, differs=None):
        self.counts[what] += 1
        if ours == theirs:
            return
        self.differences += 1
        if self.differences > 20:
            return
        print(f'DIFFERENT {what} at {where}\n  rendering {ours}\n  other     {theirs}')
        if m is not None and differs is not None:
            s = minimised(m, differs)
            print(f'  minimised: {s}')
        sys.stdout.flush()

    def one_map(self, k, family, m):
        where = f'map {self.options.seed}/{k} {family}'
        expected = all_results(m, self.notes)
        d = self.definitions
        if d:
            self.same('definitions: results', expected, d.results(m), where, m, lambda s: all_results(s) != d.results(s))
            if m.width * m.height <= 400:        # the rendering changes whole lists at each step
                self.same('literal partition', {name: expected[name] for name in ('labels', 'regions', 'tallies', 'pairs')}, d.literal_partition(m), where)
        r = random.Random(f'lists {self.options.seed}/{k}')
        m.pass_number = r.choice((1, 2, 3))
        if d:
            for what in ('call', 'partition', 'damaged call'):
                n = damaged_lists(r, m) if what == 'damaged call' else m
                whole = what != 'partition' and (what == 'call' or r.random() < 0.7)
                lent = odd_lists(r, n)
                before = lent.copy()
                if not whole:
                    before.records, before.output = [], []
                    lent.records, lent.output = [], []
                answer = reference.call(n, lent, whole)
                self.counts[f'answer {answer[0]}'] += 1
                self.same(f'definitions: {what}', (answer, [getattr(lent, name) for name in LENT]), d.call(n, before, whole), where)
        o = self.oracles
        for p in (1, 2, 3):
            m.pass_number = p
            sheet = sheet_bytes.sheet_of(m)
            if o:
                self.same('oracle: full', full_answer(m), o['full'].ask(sheet), where, m, lambda s: full_answer(s) != o['full'].ask(sheet_bytes.sheet_of(s)))
                self.same('oracle: full, short lists', full_answer(m, (3, 4)), o['short'].ask(sheet), where)
                self.same('oracle: kept', sheet_bytes.keptlist(sheet), o['kept'].ask(sheet), where)
        if o:
            self.same('oracle: partition', partition_answer(m), o['partition'].ask(sheet), where)

    def one_sheet(self, k, what, data):
        where = f'sheet {self.options.seed}/{k} {what}'
        printed = sheet_bytes.keptlist(data)
        self.counts['printed ' + ' '.join(printed.split()[:2] if printed.startswith('refused') else ['kept'])] += 1
        r = random.Random(f'room {self.options.seed}/{k}')
        d, o = self.definitions, self.oracles
        if d and len(data) <= 4000:
            self.same('definitions: printed', printed, d.keptlist(data), where)
            lengths = r.choice(((5000, 1024, 2304, 512),) * 3 + ((20, 8, 18, 4), (400, 0, 90, 2), (400, 40, 90, 1), (400, 40, 8, 4)))
            lists = [[9] * n for n in lengths]
            answer, _ = sheet_bytes.read_sheet(data, *lists)
            self.same('definitions: reading', (answer, lists), d.read(data, lengths), where)
        if o:
            self.same('oracle: kept of a damaged sheet', printed, o['kept'].ask(data), where)
            self.same('oracle: read', read_answer(data), o['read'].ask(data), where)
            try:
                m = sheet_bytes.read(data)
            except sheet_bytes.Refused as refused:
                expected = {'number': refused.number, 'value': refused.place}
            else:
                expected = full_answer(m)
            self.same('oracle: full of a damaged sheet', expected, o['full'].ask(data), where)

    def run(self):
        started = time.time()
        maps = generate.maps(self.options.count, self.options.seed, self.options.first), edges.edge_maps(self.options.edges, self.options.seed)
        for k, family, m in itertools.chain(*maps):
            if reference.early_refusal(m, reference.lend(m), True):
                self.counts['maps passed over'] += 1
                continue
            self.counts['maps'] += 1
            self.one_map(k, family, m)
            if self.counts['maps'] % 1000 == 0:
                print(f'{self.counts["maps"]} maps, {self.differences} differences, {time.time() - started:.0f} s', flush=True)
        for k, m in generate.large_maps(self.options.large, self.options.seed):
            self.counts['large maps'] += 1
            self.counts['large maps: cells'] += len(m.cells)
            self.counts['large maps: boundaries'] += len(m.boundaries) // 9
            for m.pass_number in (1, 2, 3):
                if self.oracles:
                    sheet = sheet_bytes.sheet_of(m)
                    self.same('oracle: full, large', full_answer(m), self.oracles['full'].ask(sheet), f'large map {self.options.seed}/{k}')
                reference.results(m, self.notes)
        for k, what, data in damage.sheets(generate.small_plan, self.options.count, self.options.seed, self.options.first):
            self.counts['damaged sheets'] += 1
            self.one_sheet(k, what, data)
        for o in self.oracles.values():
            o.close()
        for name in sorted(self.counts):
            print(f'{self.counts[name]:8} {name}')
        for name in sorted(self.notes):
            if name.startswith('pass') or name.startswith('edge'):
                print(f'{self.notes[name]:8} {name}')
        print(f'{self.differences} differences, {time.time() - started:.0f} s')
        return 1 if self.differences else 0


def main():
    a = argparse.ArgumentParser()
    a.add_argument('count', type=int)
    a.add_argument('--seed', default='1')
    a.add_argument('--from', dest='first', type=int, default=0)
    a.add_argument('--oracle')
    a.add_argument('--edges', type=int, default=0, help='so many maps of edges.py too')
    a.add_argument('--large', type=int, default=0, help='so many large maps, with the oracle only')
    a.add_argument('--no-definitions', action='store_true')
    a.add_argument('--literal', action='store_true')
    return Run(a.parse_args()).run()


if __name__ == '__main__':
    sys.exit(main())
