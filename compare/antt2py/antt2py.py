#!/usr/bin/env python3
"""Mechanical translation of the antt definitions into Python: each clause becomes a branch, each name keeps its name.

Reads the .antt text itself, so nothing can be corrected on the way. generate(mode) gives Python source:
  mode 'fast'    : the scans, the sort and a few hot definitions come from native.py (selftest.py compares them with the
                   literal ones); floats are Python doubles
  mode 'literal' : everything of the definitions and of lib.Ieee is generated from the text; only Prim, lists, Bool, Dec,
                   strings and the integers are native

A `let` whose name is used once, outside a λ, is put in its place (antt evaluates where the value is needed; Python would
evaluate before), and the list that `firstRefusal` walks is made entry by entry. Both change costs only.
"""
import keyword
import os
import re
import shutil
import sys

HERE = os.path.dirname(os.path.abspath(__file__))
SPECS = os.environ.get('SPECS', os.path.join(HERE, '../../crates/definitions/specs'))
PARTITION = os.path.join(HERE, '../../crates/rust_partition/specs/Literal')  # the Rust's partition as it is written


def library():
    """the toolchain's folder of the modules lib.*: RATTLE_LIB, or beside the `rt` on the path"""
    if 'RATTLE_LIB' in os.environ:
        return os.environ['RATTLE_LIB']
    rt = shutil.which('rt')
    if rt is None:
        sys.exit('set RATTLE_LIB to the folder logic/Lib of the toolchain')
    return os.path.join(os.path.dirname(os.path.dirname(os.path.realpath(rt))), 'rattle/logic/Lib')


TOK = re.compile(r'''\s+|(?P<str>"(?:[^"\\]|\\.)*")|(?P<punct>[(){};,])|(?P<lam>λ)|(?P<proj>(?<=\))(?:\.[^\W\d_][\w']*)+)'''
                 r'''|(?P<name>[^\s(){};,λ."]+(?:\.[^\s(){};,.λ"]+)*)|(?P<dot>\.)''')


def tokens(text):
    out, at = [], 0
    while at < len(text):
        m = TOK.match(text, at)
        if not m:
            raise SyntaxError(text[at:at + 40])
        at = m.end()
        if m.lastgroup:
            out.append((m.lastgroup, m.group(m.lastgroup)))
    return out


# precedences as the libraries declare them
OPS = {'||': (30, 'l'), '&&': (35, 'l'), '+': (65, 'l'), '-': (65, 'l'), '*': (70, 'l'), '/': (70, 'l'), '%': (70, 'l'),
       '^': (75, 'r'), '∷': (67, 'r'), '∷ᴸ': (67, 'r'), '++': (65, 'l'), '+ℤ': (6, 'l'), '-ℤ': (6, 'l'), '*ℤ': (7, 'l')}
NUMERAL = re.compile(r'0x[0-9A-Fa-f_]+|\d[\d_]*')


class P:
    """expressions: ('var',n) ('num',k) ('str',s) ('app',f,a) ('proj',e,f) ('lam',x,b) ('let',x,e,b) ('op',o,a,b) ('rec',[(f,e)])"""

    def __init__(self, toks):
        self.t, self.i = toks, 0

    def peek(self, k=0):
        return self.t[self.i + k] if self.i + k < len(self.t) else (None, None)

    def next(self):
        self.i += 1
        return self.t[self.i - 1]

    def expect(self, v):
        if self.peek()[1] != v:
            raise SyntaxError(f'expected {v}, got {self.t[self.i:self.i + 8]}')
        self.i += 1

    def expr(self, least=0):
        left = self.app()
        while True:
            k, v = self.peek()
            if k != 'name' or v not in OPS or OPS[v][0] < least:
                return left
            prec, side = OPS[v]
            self.next()
            left = ('op', '∷' if v == '∷ᴸ' else v, left, self.expr(prec + 1 if side == 'l' else prec))

    def app(self):
        k, v = self.peek()
        if v == 'let':
            self.next()
            name = self.next()[1]
            while self.peek()[1] != '=':
                self.next()
            self.expect('=')
            e = self.expr()
            self.expect('in')
            return ('let', name, e, self.expr())
        if v == 'do':
            self.next()
            self.expect('{')
            return self.statements()
        if k == 'lam':
            self.next()
            names = []
            while self.peek()[0] != 'dot':
                names.append(self.next()[1])
            self.next()
            body = self.expr()
            for n in reversed(names):
                body = ('lam', n, body)
            return body
        e = self.atom()
        while True:
            k, v = self.peek()
            if v == '(' or k == 'str' or (k == 'name' and v not in OPS and v not in ('=', 'in', ':', '←')):
                e = ('app', e, self.atom())
            elif k == 'lam':
                e = ('app', e, self.app())
            else:
                return e

    def statements(self):
        """x ← e ; .. ; e: each line but the last is bound to the next by _>>=_"""
        name = None
        if self.peek(1)[1] == '←':
            name = self.next()[1]
            self.next()
        e = self.expr()
        if self.peek()[1] == '}':
            self.next()
            assert name is None
            return e
        self.expect(';')
        return ('app', ('app', ('var', '◌>>=◌'), e), ('lam', name, self.statements()))

    def atom(self):
        k, v = self.next()
        if v == '(':
            e = self.expr()
            self.expect(')')
            # a projection stands tight behind what it is of
            if self.peek()[0] == 'proj':
                for field in self.next()[1].split('.')[1:]:
                    e = ('proj', e, field)
            return e
        if k == 'str':
            return ('str', v[1:-1].replace('\\n', '\n'))
        if v == 'record':
            self.expect('{')
            fields = []
            while self.peek()[1] != '}':
                f = self.next()[1]
                self.expect('=')
                fields.append((f, self.expr()))
                if self.peek()[1] == ';':
                    self.next()
            self.next()
            return ('rec', fields)
        if k == 'name' and NUMERAL.fullmatch(v):
            return ('num', int(v, 0))
        if k == 'name':
            first, *fields = v.split('.') if v not in CONST and '..' not in v else [v]
            e = ('var', first)
            for field in fields:
                e = ('proj', e, field)
            return e
        raise SyntaxError(f'atom {k} {v} {self.t[self.i:self.i + 8]}')


def flat_app(e):
    args = []
    while e[0] == 'app':
        args.append(e[2])
        e = e[1]
    return e, args[::-1]


def uses(e, x, under=False):
    """how often x is used, a use under a λ counting as many"""
    k = e[0]
    if k == 'var':
        return (2 if under else 1) if e[1] == x else 0
    if k in ('num', 'str'):
        return 0
    if k == 'app':
        return uses(e[1], x, under) + uses(e[2], x, under)
    if k == 'proj':
        return uses(e[1], x, under)
    if k == 'lam':
        return 0 if e[1] == x else uses(e[2], x, True)
    if k == 'let':
        return uses(e[2], x, under) + (0 if e[1] == x else uses(e[3], x, under))
    if k == 'op':
        return uses(e[2], x, under) + uses(e[3], x, under)
    if k == 'rec':
        return sum(uses(v, x, under) for _, v in e[1])
    raise ValueError(e)


class Decl:
    def __init__(self, module, name, section):
        self.module, self.name, self.section = module, name, section
        self.clauses = []
        self.arity = None


def joined(block):
    """the lines of a clause as one text; the lines under a `do` become { .. ; .. }"""
    lines = [line for _, line in block]
    for k, line in enumerate(lines[:-1]):
        if line == 'do' or line.endswith(' do'):
            indent = block[k + 1][0]
            statements = []
            for ind, text in block[k + 1:]:
                if ind > indent:
                    statements[-1] += ' ' + text
                else:
                    assert ind == indent, block
                    statements.append(text)
            return ' '.join(lines[:k + 1]) + ' { ' + ' ; '.join(statements) + ' }'
    return ' '.join(lines)


class Module:
    def __init__(self, name, path):
        self.name = name
        self.decls, self.records, self.ctors, self.imports, self.mods = {}, {}, {}, {}, {}
        self.parse(open(path, encoding='utf-8').read())

    def logical(self, text):
        lines = []
        for raw in text.split('\n'):
            if not raw.strip() or raw.strip().startswith('--'):
                continue
            assert ' -- ' not in raw.split('"')[0] or '=' not in raw, raw
            lines.append((len(raw) - len(raw.lstrip()), raw.strip()))
        return lines

    def parse(self, text):
        lines = self.logical(text)
        i, sections, counter = 0, [], 0          # sections: (indent of the module line, id, params)
        while i < len(lines):
            ind, line = lines[i]
            while sections and ind <= sections[-1][0]:
                sections.pop()
            block = [(ind, line)]
            j = i + 1
            is_module = line.startswith('module _')
            if not is_module:
                while j < len(lines) and lines[j][0] > ind:
                    block.append(lines[j])
                    j += 1
            i = j
            if is_module:
                counter += 1
                params = re.findall(r'\((\w+(?: \w+)*) :', line)
                sections.append((ind, counter, [x for p in params for x in p.split()]))
                continue
            if line.startswith(('pub mod', 'mod ', 'infix', 'ruleset')):
                continue
            if line.startswith('use '):
                m = re.fullmatch(r'use ([\w.+-]+?)(?:\.\{(.*)\})?(?: as (\w+))?', ' '.join(text for _, text in block))
                path, names, alias = m.group(1), m.group(2), m.group(3)
                short = path.split('.')[-1]
                if names is None:
                    self.mods[alias or short] = short
                else:
                    for n in names.split(','):
                        n = n.strip().split(' as ')[-1]
                        self.imports[n] = short
                continue
            if line.startswith('unfolding'):
                continue
            m = re.match(r'(?:pub )?record (\w+)', line)
            if m and line.endswith('where'):
                self.records[m.group(1)] = [re.match(r"(?:pub )?([\w']+) :", b).group(1) for _, b in block[1:]]
                continue
            m = re.match(r'(?:pub )?data (\S+)', line)
            if m and line.endswith('where'):
                for _, b in block[1:]:
                    names, typ = b.split(' : ', 1)
                    for n in names.split():
                        self.ctors[n] = typ.count('→')
                continue
            words = line.split()
            k = 0
            while words[k] in ('unfoldable', 'abbrev', 'pub'):
                k += 1
            if len(words) > k + 1 and words[k + 1] == ':':
                self.decls[words[k]] = Decl(self.name, words[k], list(sections))
                continue
            name = words[0]
            if name not in self.decls:
                raise SyntaxError(f'{self.name}: clause of unknown {name}: {line[:60]}')
            split = self.split_clause(joined(block))
            if split:
                self.decls[name].clauses.append(split)

    def split_clause(self, text):
        depth = 0
        for m in re.finditer(r'[()]| = ', text + ' '):
            if m.group() == '(':
                depth += 1
            elif m.group() == ')':
                depth -= 1
            elif depth == 0:
                return text[:m.start()], text[m.end():]
        return None                              # a clause with no body, as only proofs have


MODULES = {}
PARTITION_MODULES = ['Neighbors', 'CutMasks', 'Components', 'Assessment', 'PartitionBySpans']


def load(names):
    for n in names:
        if n not in MODULES:
            path = f'{PARTITION if n in PARTITION_MODULES else SPECS}/{n}.antt'
            MODULES[n] = Module(n, path if os.path.exists(path) else f'{library()}/{n}.antt')


TAKEN = {'at', 'all', 'any', 'map', 'filter', 'min', 'max', 'len', 'N', 'R', 'None', 'True', 'False'}


def py(name):
    for a, b in {"'": '_p', '·': '_dot_', '-': '_minus_', '?': '_q'}.items():
        name = name.replace(a, b)
    if keyword.iskeyword(name) or name in TAKEN:
        name += '_'
    return re.sub(r'[^\w]', '_', name)


# name -> (python name, arity)
NATIVE = {
    'min': ('min', 2), 'max': ('max', 2), 'not': ('N.not_', 1), 'beq': ('N.beq', 2), 'map': ('N.map_', 2), 'length': ('len', 1),
    'get_or': ('N.get_or', 3), 'drop': ('N.drop', 2), 'replicate': ('N.replicate', 2), 'eqb': ('N.eqb', 2), 'ltb': ('N.ltb', 2), 'leb': ('N.leb', 2),
    'lt_z': ('N.ltb', 2), 'le_z': ('N.leb', 2), 'non_neg': ('N.non_neg', 1), 'shr_z': ('N.shr_z', 2), 'compare': ('N.compare', 2),
    'set': ('N.set_', 3), 'slice_get': ('N.get', 2), 'bit_and': ('N.bit_and', 2), 'bit_or': ('N.bit_or', 2),
    'suc': ('N.suc', 1), 'pos': ('N.pos', 1), 'negsuc': ('N.negsuc', 1), 'Some': ('N.some', 1), 'neg_ℤ': ('N.neg', 1), 'code': ('ord', 1),
}
CONST = {'true': 'True', 'false': 'False', 'zero': '0', '[]': '()', '[]ᴸ': '()', 'None': 'None', 'tt': '()',
         'Ordering.lt': "'lt'", 'Ordering.eq': "'eq'", 'Ordering.gt': "'gt'"}
FLOATS = {'add': 3, 'sub': 3, 'mul': 3, 'div': 3, 'neg': 1, 'lt': 2, 'le': 2, 'eq': 2, 'of_bits': 2, 'to_bits': 2, 'of_int': 2}
PLAIN_CLASS = {'Map', 'Context'}                 # compared by identity; their functions remember what they gave


class Gen:
    def __init__(self, mode, overrides, memo):
        self.mode, self.overrides, self.memo = mode, overrides, memo
        self.done, self.out = set(), []
        self.todo = []

    # ---- names
    def find(self, module, name):
        """the declaration of a name that is not native, or None"""
        m = MODULES[module]
        if '.' in name:
            q, rest = name.split('.', 1)
            return MODULES[m.mods.get(q, q)].decls[rest]
        if name in m.decls:
            return m.decls[name]
        if name in m.imports:
            src = m.imports[name]
            if src in MODULES and name in MODULES[src].decls:
                return MODULES[src].decls[name]
        return None

    def ctor(self, module, name):
        m = MODULES[module]
        src = m.imports.get(name, module)
        if src in MODULES and name in MODULES[src].ctors:
            return MODULES[src].ctors[name]
        return m.ctors.get(name)

    def arity(self, d):
        if d.arity is None:
            d.arity = len(self.patterns(d.clauses[0][0])) + sum(len(s[2]) for s in d.section)
        return d.arity

    def patterns(self, head):
        p = P(tokens(head))
        p.next()
        pats = []
        while p.peek()[0]:
            pats.append(p.atom())
        return pats

    # ---- expressions
    def call(self, fname, arity, args):
        if len(args) >= arity:
            s = f'{fname}({", ".join(args[:arity])})'
            for a in args[arity:]:
                s = f'{s}({a})'
            return s
        return f'N.partial({", ".join([fname, str(arity - len(args))] + args)})'

    def listed(self, e):
        """the entries of a list that is written out, or None"""
        out = []
        while e[0] == 'op' and e[1] == '∷':
            out.append(e[2])
            e = e[3]
        return out if e == ('var', '[]') else None

    def ex(self, e, env, d):
        k = e[0]
        if k == 'num':
            return str(e[1])
        if k == 'str':
            return repr(e[1])
        if k == 'lam':
            x = py(e[1])
            return f'(lambda {x}: {self.ex(e[2], env | {e[1]: x}, d)})'
        if k == 'let':
            value = self.ex(e[2], env, d)
            if uses(e[3], e[1]) <= 1:
                return self.ex(e[3], env | {e[1]: f'({value})'}, d)
            x = py(e[1])
            return f'(lambda {x}: {self.ex(e[3], env | {e[1]: x}, d)})({value})'
        if k == 'op':
            a, b = self.ex(e[2], env, d), self.ex(e[3], env, d)
            o = e[1]
            if o == '&&':
                return f'({a} and {b})'
            if o == '||':
                return f'({a} or {b})'
            if o in ('+', '*', '+ℤ', '*ℤ', '-ℤ'):
                return f'({a} {o[0]} {b})'
            named = {'-': 'monus', '/': 'quot', '%': 'mod', '^': 'power'}
            if o in named:
                return f'N.{named[o]}({a}, {b})'
            if o == '∷':
                return f'(({a},) + {b})'
            if o == '++':
                return f'({a} + {b})'
        if k == 'proj' and self.qualified(e, env, d):
            return self.applied(e, env, d)
        if k == 'proj':
            return f'{self.ex(e[1], env, d)}.{py(e[2])}'
        if k == 'rec':
            names = sorted(f for f, _ in e[1])
            found = [(r, fs) for mod in MODULES.values() for r, fs in mod.records.items() if sorted(fs) == names]
            assert len(found) == 1, names
            vals = {f: self.ex(x, env, d) for f, x in e[1]}
            return f'R.{found[0][0]}({", ".join(vals[f] for f in found[0][1])})'
        if k in ('app', 'var'):
            return self.applied(e, env, d)
        raise ValueError(e)

    def qualified(self, e, env, d):
        """the name MODULE.NAME, where the record of a projection is no variable but a module that the file names so"""
        if e[0] == 'proj' and e[1][0] == 'var' and e[1][1] not in env and e[1][1] in MODULES[d.module].mods:
            return f'{e[1][1]}.{e[2]}'
        return None

    def applied(self, e, env, d):
        head, args = flat_app(e)
        name = self.qualified(head, env, d)
        if name:
            head = ('var', name)
        if head[0] != 'var' or head[1] in env:
            s = env[head[1]] if head[0] == 'var' else self.ex(head, env, d)
            for a in args:
                s = f'{s}({self.ex(a, env, d)})'
            return s
        n = head[1]
        if n == 'first_refusal' and len(args) == 2 and self.listed(args[0]):
            entries = ', '.join(f'lambda: {self.ex(x, env, d)}' for x in self.listed(args[0]))
            return f'N.lazily({self.ref(self.find(d.module, n))}, [{entries}], lambda: {self.ex(args[1], env, d)})'
        a = [self.ex(x, env, d) for x in args]
        if n in ('cond', 'condTurned'):          # the latter is a mutant's
            assert len(a) >= 3
            x, y = (1, 2) if n == 'cond' else (2, 1)
            s = f'({a[x]} if {a[0]} else {a[y]})'
            for x in a[3:]:
                s = f'{s}({x})'
            return s
        if n in CONST and not a:
            return CONST[n]
        t = self.find(d.module, n)
        if t is None and '.' not in n:
            c = self.ctor(d.module, n)
            if n in ('binary64', 'binary32'):
                return f"'{n}'"
            if c is not None and n not in NATIVE:
                assert len(a) == c, (n, a)
                return '(' + ', '.join([f"'{n}'"] + a) + ',)'
            if self.mode == 'fast' and n in FLOATS:
                return self.call(f'N.f_{n}', FLOATS[n], a)
            if n in NATIVE:
                return self.call(*NATIVE[n], a)
            raise NameError(f'{d.module}.{d.name}: {n}')
        # parameters of the sections that the caller stands in too
        shared = []
        for s1, s2 in zip(t.section, d.section if t.module == d.module else []):
            if s1[1] != s2[1]:
                break
            shared += s1[2]
        return self.call(self.ref(t), self.arity(t), [env[x] for x in shared] + a)

    def ref(self, t):
        full = f'{t.module}.{t.name}'
        if full in self.overrides:
            return self.overrides[full]
        self.todo.append(t)
        return f'{t.module}__{py(t.name)}'

    # ---- patterns: conditions and bindings
    def pat(self, p, v, d, conds, binds):
        if p[0] == 'op' and p[1] == '∷':
            conds.append(f'len({v}) > 0')
            self.pat(p[2], f'{v}[0]', d, conds, binds)
            self.pat(p[3], f'{v}[1:]', d, conds, binds)
            return
        head, args = flat_app(p)
        n = head[1]
        tests = {'[]': f'len({v}) == 0', 'zero': f'{v} == 0', 'true': f'{v}', 'false': f'not {v}', 'None': f'{v} is None'}
        inner = {'Some': (f'{v} is not None', f'{v}[0]'), 'suc': (f'{v} > 0', f'({v} - 1)'), 'pos': (f'{v} >= 0', v),
                 'negsuc': (f'{v} < 0', f'(-1 - {v})')}
        if n in tests:
            conds.append(tests[n])
        elif n in inner:
            conds.append(inner[n][0])
            self.pat(args[0], inner[n][1], d, conds, binds)
        elif n.startswith('Ordering.'):
            conds.append(f'{v} == {CONST[n]}')
        elif n in ('binary64', 'binary32'):
            conds.append(f"{v} == '{n}'")
        elif self.ctor(d.module, n) is not None:
            conds.append(f"{v}[0] == '{n}'")
            for k, a in enumerate(args):
                self.pat(a, f'{v}[{k + 1}]', d, conds, binds)
        else:
            assert not args, p
            binds.append((n, v))

    def define(self, d):
        full = f'{d.module}.{d.name}'
        if full in self.done:
            return
        self.done.add(full)
        params = [x for s in d.section for x in s[2]]
        n = self.arity(d)
        names = [py(x) for x in params] + [f'_v{k}' for k in range(n - len(params))]
        lines = ['@N.memo'] if full in self.memo else []
        lines.append(f'def {d.module}__{py(d.name)}({", ".join(names)}):')
        for head, body in d.clauses:
            pats = self.patterns(head)
            assert len(pats) + len(params) == n, (full, head)
            env = {x: py(x) for x in params}
            conds, binds = [], []
            for k, p in enumerate(pats):
                self.pat(p, f'_v{k}', d, conds, binds)
            lines.append(f'    # {head} = ..')
            lines.append(f'    if {" and ".join(conds) or "True"}:')
            for x, v in binds:
                lines.append(f'        {py(x)} = {v}')
                env[x] = py(x)
            tree = P(tokens(body))
            e = tree.expr()
            assert tree.i == len(tree.t), (full, tree.t[tree.i:tree.i + 5])
            lines.append(f'        return {self.ex(e, env, d)}')
        lines.append(f'    raise AssertionError("no clause of {full}")')
        self.out.append('\n'.join(lines))

    def run(self, roots):
        for r in roots:
            m, n = r.split('.', 1)
            self.todo.append(MODULES[m].decls[n])
        while self.todo:
            self.define(self.todo.pop())
        head = ['# made by antt2py.py from the antt text; not to be edited', 'from collections import namedtuple', 'import native as N', '', '',
                'class R:']
        for mod in MODULES.values():
            for r, fs in mod.records.items():
                fields = [py(f) for f in fs]
                if r in PLAIN_CLASS:
                    head += [f'    class {r}(N.Plain):', f'        fields = {fields}']
                else:
                    head.append(f'    {r} = namedtuple("{r}", {fields})')
        return '\n'.join(head) + '\n\n\n' + '\n\n\n'.join(self.out) + '\n'


SPEC_MODULES = ['Limits', 'Lists', 'Scan', 'Sort', 'Grid', 'Spans', 'Partition', 'Hypotenuse', 'Geometry', 'RampGeometry', 'RegionRecord', 'Context',
                'MouthShapes', 'RampMouths', 'RampInteriors', 'Junctions', 'Rows', 'Refusals', 'Verdict', 'AtExit', 'SheetNumber', 'Sheet', 'Printed']
FAST = {'Scan': ['any_below_lem', 'all_below', 'count_below', 'collect', 'gather', 'any', 'all', 'filter', 'concat_map', 'run', 'member', 'add_new', 'add_all'],
        'Sort': ['insert', 'sort_onto', 'sort', 'select', 'list_lt'],
        'Partition': ['merge_all', 'uncut', 'roots', 'labels', 'region_count'],
        'RegionRecord': ['least', 'most'], 'Refusals': ['first_below_lem'], 'RampGeometry': ['fabs'], 'Hypotenuse': ['hypot_of']}
ROOTS = ['Grid.map_of', 'Grid.onward', 'Spans.cut_steps', 'Spans.candidate_positions', 'Spans.cuts', 'Partition.all_steps', 'Partition.cut_all_lem', 'Partition.uncut',
         'Partition.merge_all', 'Partition.roots', 'Partition.labels', 'Partition.region_count', 'Partition.pairs_of', 'Context.context_of', 'RegionRecord.region_of',
         'RegionRecord.empty_region', 'RegionRecord.least', 'RegionRecord.most', 'RegionRecord.dominance', 'RegionRecord.same_dominance', 'RegionRecord.strictly_flat',
         'Geometry.point_segment_distance', 'RampGeometry.segment_distance', 'RampGeometry.is_nearby_parallel_representative',
         'RampGeometry.overlapping_ramp_representative', 'MouthShapes.mouth_shape', 'RampMouths.proposals', 'RampMouths.taken', 'RampInteriors.proposals',
         'RampInteriors.taken', 'Junctions.proposals', 'Junctions.taken', 'Rows.rows_of', 'Rows.flat_rows', 'Verdict.verdict', 'Verdict.partition_verdict',
         'Verdict.pair_rows_of', 'Verdict.first_refusal', 'AtExit.tallies_of', 'AtExit.records_of', 'AtExit.call_exit', 'AtExit.partition_exit', 'Refusals.first_below_lem',
         'Sheet.read_sheet', 'Sheet.read_verdict', 'Sheet.reading_number', 'Sheet.reading_place', 'Sheet.at_exit', 'Printed.keptlist', 'Printed.decimal']
PARTITION_ROOTS = ['PartitionBySpans.partition_by_spans', 'PartitionBySpans.tallies_held', 'PartitionBySpans.pair_rows_held']
LITERAL_ROOTS = ['Hypotenuse.hypot_of', 'Hypotenuse.hypot_number', 'Hypotenuse.hypot_value', 'Ieee.add', 'Ieee.sub', 'Ieee.mul', 'Ieee.div', 'Ieee.lt', 'Ieee.le', 'Ieee.eq',
                 'Ieee.neg', 'Ieee.of_bits', 'Ieee.to_bits', 'Ieee.of_int', 'RampGeometry.fabs'] + [f'{m}.{n}' for m in ('Scan', 'Sort') for n in FAST[m]]
REMEMBERED = ['Grid.map_of', 'Grid.onward', 'Spans.cut_steps', 'Partition.all_steps', 'Partition.cut_all_lem', 'Partition.uncut', 'Partition.roots', 'Partition.labels',
              'Partition.region_count', 'Context.context_of', 'Rows.removed_of', 'Geometry.distance', 'Geometry.point_segment_distance', 'RampGeometry.segment_distance',
              'RampGeometry.is_nearby_parallel_representative', 'RampGeometry.overlapping_ramp_representative']


def generate(mode):
    """Python source of the definitions; remembers results of what is asked again and again, which changes no result"""
    MODULES.clear()
    load(SPEC_MODULES + PARTITION_MODULES)
    over = {}
    if mode == 'literal':
        load(['Ieee', 'Count'])
    else:
        over = {f'{m}.{n}': f'N.s_{n}' for m, names in FAST.items() for n in names}
    memo = set(REMEMBERED)
    for m in ('Context', 'RampMouths', 'RampInteriors', 'Junctions'):
        memo |= {f'{m}.{n}' for n, d in MODULES[m].decls.items() if any(s[2] for s in d.section)}
    roots = ROOTS + PARTITION_ROOTS + (LITERAL_ROOTS if mode == 'literal' else [])
    return Gen(mode, over, memo).run([r for r in roots if r not in over])


def module(mode):
    """the translated definitions as a module"""
    import types
    if HERE not in sys.path:
        sys.path.insert(0, HERE)
    import native
    made = types.ModuleType(f'definitions_{mode}')
    exec(compile(generate(mode), f'<definitions, {mode}>', 'exec'), made.__dict__)
    if mode == 'fast':
        native.DEFS = made
        for m, names in FAST.items():
            for n in names:
                setattr(made, f'{m}__{py(n)}', getattr(native, f's_{n}'))
    made.forget = native.forget
    return made


if __name__ == '__main__':
    words = sys.argv[1:]
    if words == ['--help']:
        print(__doc__.strip())
    elif words in ([], ['literal'], ['fast']):
        print(generate(*words or ['literal']))
    else:
        print('usage: antt2py.py [literal|fast]', file=sys.stderr)
        sys.exit(2)
