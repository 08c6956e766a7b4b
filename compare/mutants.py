"""One-token changes of the definitions: which of them no map and no sheet of the corpus notices.

    python3 mutants.py [--maps N] [--edges N] [--part PART] [--only MODULE] [--list FILE] [--verbose]

Each change is made to the text of one clause, the text is translated anew (antt2py, mode fast) and run until its answer differs from the
rendering's. What is left is printed; docs/MUTANTS.md gives the reason for each. PART is `passes`, `map` or `table` (the rest of the definitions);
FILE has lines as this prints them, and only those changes are tried.

Changed are: && and ||, comparisons (strict and not), any and all, min and max, numerals (by one), the fields of pairs, positions, segments and
edges, sums and products, true and false, `not` (dropped), `cond` (branches turned).
"""
import argparse
import os
import random
import signal
import sys
import time

sys.path.insert(0, os.path.join(os.path.dirname(os.path.abspath(__file__)), 'antt2py'))
sys.setrecursionlimit(1_000_000)

import package  # noqa: F401, E402
import antt2py                                   # noqa: E402
import compare                                   # noqa: E402
import damage                                    # noqa: E402
import edges                                     # noqa: E402
import generate                                  # noqa: E402
import native                                    # noqa: E402
from jenwyllt.unproved import reference, sheet_bytes  # noqa: E402
from jenwyllt.unproved.hypotenuse import bits  # noqa: E402

SWAPS = [('&&', '||'), ('leb', 'ltb'), ('le', 'lt'), ('any', 'all'), ('any_below_lem', 'all_below'), ('min', 'max'), ('fmin', 'fmax'), ('.lo', '.hi'), ('.a', '.b'),
         ('.x', '.y'), ('.px', '.py'), ('.min_x_lem', '.max_x_lem'), ('.min_y_lem', '.max_y_lem'), ('.inner', '.outer'), ('.first', '.second'), ('.first_port', '.second_port'),
         ('.mouth_index', '.ramp_index'), ('.lower', '.upper'), ('.kind', '.ramp_id'), ('.removed_edges', '.separated_edges'), ('.width', '.height'), ('add', 'sub'),
         ('mul', 'div'), ('+', '-'), ('*', '/'), ('/', '%'), ('+ℤ', '-ℤ'), ('true', 'false'), ('leb', 'eqb'), ('ltb', 'eqb'), ('eqb', 'leb')]


def changes(token):
    """what a token may become; '' drops it"""
    kind, text = token
    out = []
    for a, b in SWAPS:
        if text == a:
            out.append(b)
        elif text == b and (b, a) not in SWAPS:
            out.append(a)
    if kind == 'name' and antt2py.NUMERAL.fullmatch(text):
        n = int(text, 0)
        out += [str(n + 1)] + ([str(n - 1)] if n else [])
    if text == 'not':
        out.append('')
    if text == 'cond':
        out.append('cond-turned')
    return list(dict.fromkeys(out))


def mutants(modules):
    """(module, name, clause, token, the text before it and behind it, old, new)"""
    antt2py.MODULES.clear()
    antt2py.load(antt2py.SPEC_MODULES)
    for module in modules:
        for name, d in antt2py.MODULES[module].decls.items():
            for k, (head, body) in enumerate(d.clauses):
                toks = antt2py.tokens(body)
                for i, t in enumerate(toks):
                    for new in changes(t):
                        yield module, name, k, i, toks, t[1], new


def turned(text):
    """cond-turned b x y is cond b y x"""
    return text.replace('cond-turned', 'condTurned')


class Mutated:
    def __init__(self):
        self.overrides = {f'{m}.{n}': f'N.s_{n}' for m, names in antt2py.FAST.items() for n in names}

    def make(self, module, name, clause, i, toks, new):
        """the definitions with one token changed, or None where the change is not reached"""
        antt2py.MODULES.clear()
        antt2py.load(antt2py.SPEC_MODULES)
        d = antt2py.MODULES[module].decls[name]
        head, _ = d.clauses[clause]
        words = [t[1] for t in toks]
        words[i] = turned(new)
        d.clauses[clause] = (head, ' '.join(words))
        memo = set(antt2py.REMEMBERED)
        for m in ('Context', 'RampMouths', 'RampInteriors', 'Junctions'):
            memo |= {f'{m}.{n}' for n, e in antt2py.MODULES[m].decls.items() if any(s[2] for s in e.section)}
        over = {k: v for k, v in self.overrides.items() if k != f'{module}.{name}'}
        text_alone = {k: v for k, v in over.items() if not k.startswith(module + '.') or module == 'RampGeometry'}
        if f'{module}.{name}' in self.overrides:         # what is fast about it would hide the change
            over = text_alone
        gen = antt2py.Gen('fast', over, memo)
        text = gen.run([r for r in antt2py.ROOTS if r not in over])
        if f'{module}.{name}' not in gen.done:           # a fast form stands before it
            over = text_alone
            gen = antt2py.Gen('fast', over, memo)
            text = gen.run([r for r in antt2py.ROOTS if r not in over])
        if f'{module}.{name}' not in gen.done:
            return None
        del native.CACHES[:]
        made = type(sys)('mutated')
        exec(compile(text, '<mutated>', 'exec'), made.__dict__)
        for k, v in over.items():
            m, n = k.split('.')
            setattr(made, f'{m}__{antt2py.py(n)}', getattr(native, v[2:]))
        made.forget = native.forget
        return made


# ---- the corpus

PASS_MODULES = {'MouthShapes': (1,), 'RampMouths': (1,), 'RampGeometry': (1,), 'RampInteriors': (1, 2), 'Junctions': (3,), 'Geometry': (1, 2, 3), 'RegionRecord': (1, 2, 3), 'Context': (1, 2, 3)}
PARTS = {'passes': ('Geometry', 'RampGeometry', 'MouthShapes', 'RampMouths', 'RampInteriors', 'Junctions'),
         'map': ('Scan', 'Sort', 'Grid', 'Spans', 'Partition', 'RegionRecord', 'Context', 'Rows'),
         'table': ('Limits', 'Lists', 'Refusals', 'Verdict', 'AtExit', 'SheetNumber', 'Sheet', 'Printed')}     # Hypotenuse has its own tests
SHEET_MODULES = ('SheetNumber', 'Sheet', 'Printed', 'Limits', 'Lists')
CALL_MODULES = ('Refusals', 'Verdict', 'AtExit', 'Limits', 'Lists', 'Scan')


class Noticed(Exception):
    pass


class Late(Exception):
    pass


class Corpus:
    def __init__(self, count, of_edges):
        self.original = compare.Definitions()
        native.DEFS = self.original.d
        self.maps, self.contexts, self.calls, self.sheets = [], [], [], []
        self.add(generate.maps(count, 'mutants'), count)
        self.add(edges.edge_maps(of_edges, 'mutants'), of_edges // 2)
        self.add(edges.edge_maps(of_edges // 10, 'mutants', [edges.least_and_greatest]), of_edges // 2)
        for m in self.ramps_at_limits():
            lent = reference.lend(m)
            self.calls.append((m, lent.copy(), True, (reference.call(m, lent), [getattr(lent, name) for name in reference.LENT])))
        rooms = ((5000, 1024, 2304, 512), (20, 8, 18, 4), (400, 0, 90, 2), (400, 40, 90, 1), (400, 40, 8, 4))
        for k, what, data in damage.sheets(generate.small_plan, count, 'mutants'):
            if len(data) <= 400:
                self.add_sheet(data, rooms[k % 5])
        self.add_sheet(b''.join(map(sheet_bytes.number_bytes, (1, 1, 1024, 1024))), rooms[0])          # within the sides, and ends early
        for data in self.large_sheets():
            self.add_sheet(data)
        native.forget()

    def add(self, maps, count):
        """their contexts, and of the smaller ones the results and some calls, with lists of odd lengths and damaged ones"""
        whole_maps, whole_calls = len(self.maps) + count // 3, len(self.calls) + count // 2
        for k, family, m in maps:
            if reference.early_refusal(m, reference.lend(m), True):
                continue
            expected = compare.all_results(m)
            d = self.original.d
            d.forget()
            M = d.Grid__map_of(m.width, m.height, tuple(m.cells), tuple(m.spans), tuple(m.boundaries), tuple(m.anchors))
            if len(m.boundaries) // 9 == len(m.spans) // 4:
                C = d.Context__context_of(M)
                numbers = range(len(m.boundaries) // 9)
                gone = [sorted(set(numbers) - {row[0] for row in rows}) for rows in expected['rows']]
                self.contexts.append((C, gone))
            if len(m.cells) <= 150 and len(self.maps) < whole_maps:
                self.maps.append((m, expected))
            if len(m.cells) <= 80 and len(self.calls) < whole_calls:
                self.add_calls(k, m)

    def add_calls(self, k, m):
        r = random.Random(k)
        for what in range(3):
            n = compare.damaged_lists(r, m) if what else m
            whole = r.random() < 0.7
            n.pass_number = n.pass_number if what else r.choice((1, 2, 3))
            lent = compare.odd_lists(r, n)
            if not whole:
                lent.records, lent.output = [], []
            before = lent.copy()
            answer = reference.call(n, lent, whole)
            self.calls.append((n, before, whole, (answer, [getattr(lent, name) for name in reference.LENT])))

    def add_sheet(self, data, room=None):
        """what keptlist prints and, with lent lists of these lengths, what reading alone answers and fills"""
        answer = None
        if room:
            lists = [[9] * n for n in room]
            answer = sheet_bytes.read_sheet(data, *lists)[0], lists
        self.sheets.append((data, sheet_bytes.keptlist(data), room, answer))

    def ramps_at_limits(self):
        """one boundary, of every kind, with one of its ramp's numbers at or beyond a limit"""
        for kind in range(4):
            for place, limits in ((6, (0, 1, (1 << 31) - 1, 1 << 31, (1 << 32) - 1, 1 << 32)), (7, (0, 1, 6, 7, 8)), (8, (0, 1, 6, 7, 8))):
                for limit in limits:
                    boundary = [8, 0, 8, 8, bits(8.0), kind, 0, 0, 0]
                    boundary[place] = limit
                    yield reference.Map(1, 2, 1, [1, 1], [8, 0, 8, 8], boundary, [])

    def large_sheets(self):
        """the ends of keptlist's limits"""
        def sheet(w, h, cells, spans=(), boundaries=(), anchors=()):
            return sheet_bytes.sheet_of(reference.Map(1, w, h, list(cells), list(spans), list(boundaries), list(anchors)))
        yield sheet(64, 64, [0] * 4096)
        yield sheet(17, 241, [0] * 4097)
        chequer = [1 - x % 2 for x in range(1023)]
        yield sheet(1023, 1, chequer)                                                                    # 512 regions
        yield sheet(1023, 2, chequer + [0] * 1021 + [1, 0])                                              # 513
        yield sheet(15, 2, chequer[:15] * 2, [0, 8, 120, 8] * 256)                                        # 2,048 pair rows
        yield sheet(17, 2, chequer[:17] * 2, [0, 8, 136, 8] * 227 + [0, 8, 48, 8] * 2)                     # 2,049
        yield sheet(1024, 1, [0] * 1024)
        yield sheet(1, 1024, [0] * 1024)
        for spans, anchors in ((256, 256), (257, 0), (0, 257)):
            yield sheet(1, 1, [0], [0, 0, 8, 8] * spans, [], [0, 0] * anchors)
        yield sheet(1, 1, [0], [], [0, 0, 8, 8, 0, 0, 0, 0, 0] * 256)
        yield sheet(1, 1, [0], [], [0, 0, 8, 8, 0, 0, 0, 0, 0] * 257)
        for length in (65_536, 65_537):
            yield sheet(1, 1, [0]).ljust(length, b'\0')

    def ask(self, items, check):
        """front items first; what notices comes to the front"""
        for k, item in enumerate(items):
            if check(item):
                items.insert(0, items.pop(k))
                raise Noticed

    def notices(self, module, name, made):
        """whether some answer differs"""
        native.DEFS = made
        d = compare.Definitions.__new__(compare.Definitions)
        d.d, d.literal = made, False
        full = f'{module}.{name}'
        if module in PASS_MODULES and full not in ('RegionRecord.region_of', 'RegionRecord.mask_of', 'RegionRecord.empty_region', 'RegionRecord.least', 'RegionRecord.most',
                                                   'Context.context_of', 'Context.anchored_of', 'Context.endpoints_key'):
            removed = {1: made.RampMouths__removed, 2: made.RampInteriors__removed, 3: made.Junctions__removed}

            def check(item):
                C, gone = item
                native.forget()
                return any(sorted(removed[p](C)) != gone[p - 1] for p in PASS_MODULES[module])
            self.ask(self.contexts, check)
            return
        if module not in SHEET_MODULES + CALL_MODULES or module in ('Scan', 'Limits', 'Lists'):
            self.ask(self.maps, lambda item: d.results(item[0]) != item[1])
        if module in CALL_MODULES or full == 'RegionRecord.empty_region':
            def check_call(item):
                native.forget()
                return d.call(item[0], item[1], item[2]) != item[3]
            self.ask(self.calls, check_call)
        if module in SHEET_MODULES + CALL_MODULES:
            self.ask(self.sheets, lambda item: d.keptlist(item[0]) != item[1] or (item[2] is not None and d.read(item[0], item[2]) != item[3]))


def late(signum, frame):
    raise Late


def text_of(module, name, clause, i, toks, old, new):
    """a change as it is printed"""
    where = f'{module}.{name}' + (f' clause {clause + 1}' if clause else '')
    return f'{where}: ' + ' '.join(t[1] for t in toks[max(0, i - 6):i]) + f' [{old} -> {new or "nothing"}] ' + ' '.join(t[1] for t in toks[i + 1:i + 7])


def main():
    a = argparse.ArgumentParser()
    a.add_argument('--maps', type=int, default=2500)
    a.add_argument('--edges', type=int, default=2000)
    a.add_argument('--part', choices=sorted(PARTS))
    a.add_argument('--only', metavar='MODULE')
    a.add_argument('--list', metavar='FILE')
    a.add_argument('--verbose', action='store_true')
    options = a.parse_args()
    modules = [options.only] if options.only else PARTS[options.part] if options.part else [m for p in PARTS.values() for m in p]
    listed = None
    if options.list:
        with open(options.list, encoding='utf-8') as lines:
            listed = {line.split('noticed: ', 1)[-1].strip() for line in lines}
    started = time.time()
    corpus, mutated = Corpus(options.maps, options.edges), Mutated()
    print(f'corpus: {len(corpus.contexts)} contexts, {len(corpus.maps)} maps, {len(corpus.calls)} calls, {len(corpus.sheets)} sheets, '
          f'{time.time() - started:.0f} s', flush=True)
    signal.signal(signal.SIGALRM, late)
    tally = {'tried': 0, 'noticed': 0, 'not finished': 0, 'ill typed': 0, 'not noticed': 0}
    for change in list(mutants(modules)):
        module, name, clause, i, toks, old, new = change
        if listed is not None and text_of(*change).strip() not in listed:
            continue
        try:
            made = mutated.make(module, name, clause, i, toks, new)
            if made is None:
                continue
        except (SyntaxError, AssertionError, KeyError, NameError, TypeError, IndexError):
            tally['tried'] += 1
            tally['ill typed'] += 1
            continue
        tally['tried'] += 1
        signal.alarm(240)
        try:
            corpus.notices(module, name, made)
            verdict = 'not noticed'
        except Noticed:
            verdict = 'noticed'
        except (Late, RecursionError, MemoryError, OverflowError):
            verdict = 'not finished'
        except (TypeError, AttributeError, AssertionError, IndexError, ValueError, KeyError, ZeroDivisionError):
            verdict = 'ill typed'
        signal.alarm(0)
        tally[verdict] += 1
        if verdict == 'not noticed' or options.verbose:
            print(f'{verdict}: {text_of(*change)}', flush=True)
    print(', '.join(f'{n} {what}' for what, n in tally.items()), f'{time.time() - started:.0f} s')


if __name__ == '__main__':
    main()
