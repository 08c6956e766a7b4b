"""What the translated definitions rest on: native numbers, lists, Bool, the integers, and (mode fast) Python doubles for lib.Ieee
and loops in place of recursions. selftest.py compares the latter with the literal translation."""
import math
import struct
from math import isqrt


class Plain:
    fields = ()

    def __init__(self, *values):
        assert len(values) == len(self.fields)
        for f, v in zip(self.fields, values):
            setattr(self, f, memo1(v) if callable(v) else v)


def memo1(f):
    cache = {}

    def g(x):
        r = cache.get(x, cache)
        if r is cache:
            r = cache[x] = f(x)
        return r
    return g


CACHES = []


def memo(f):
    cache = {}
    CACHES.append(cache)

    def g(*args):
        r = cache.get(args, cache)
        if r is cache:
            r = cache[args] = f(*args)
        return r
    g.__name__ = f.__name__
    return g


def forget():
    for c in CACHES:
        c.clear()


def partial(f, missing, *given):
    if missing == 1:
        return lambda a: f(*given, a)
    if missing == 2:
        return lambda a: lambda b: f(*given, a, b)
    return lambda a: partial(f, missing - 1, *given, a)


def lazily(first_refusal, entries, count):
    """the entries one by one: what stands behind a refusal is not worked out"""
    made = ()
    for entry in entries:
        made += (entry(),)
        if made[-1] is not None:
            return first_refusal(made, 0)
    return first_refusal(made, count())


def not_(b): return not b
def beq(a, b): return a == b
def map_(f, l): return tuple(f(x) for x in l)
def get_or(l, n, d): return l[n] if n < len(l) else d
def get(l, n): return (l[n],) if n < len(l) else None
def set_(l, n, x): return l[:n] + (x,) + l[n + 1:] if n < len(l) else l
def drop(n, l): return l[n:]
def replicate(n, x): return (x,) * n
def eqb(a, b): return a == b
def ltb(a, b): return a < b
def leb(a, b): return a <= b
def non_neg(z): return z >= 0
def suc(n): return n + 1
def pos(n): return n
def negsuc(n): return -1 - n
def neg(z): return -z
def some(x): return (x,)
def compare(a, b): return 'lt' if a < b else 'eq' if a == b else 'gt'
def monus(a, b): return a - b if a > b else 0
def quot(a, b): return a // b if b else 0
def mod(a, b): return a % b if b else a
def power(a, b): return a ** b
def bit_and(a, b): return a & b
def bit_or(a, b): return a | b
def shr_z(z, m): return (z // m if m else 0) if z >= 0 else -1 - ((-1 - z) // m if m else 0)


# ---- lib.Ieee at binary64, on Python doubles
def f_add(_, x, y): return x + y
def f_sub(_, x, y): return x - y
def f_mul(_, x, y): return x * y


def f_div(_, x, y):
    if y == 0:
        if x == 0 or x != x:
            return math.nan
        return math.copysign(math.inf, x) * math.copysign(1.0, y)
    return x / y


def f_neg(x): return -x
def f_lt(x, y): return x < y
def f_le(x, y): return x <= y
def f_eq(x, y): return x == y
def f_of_bits(_, b): return struct.unpack('<d', struct.pack('<Q', b))[0]
def f_to_bits(_, x): return struct.unpack('<Q', struct.pack('<d', x))[0]
def f_of_int(_, n): return float(n)
def s_fabs(x): return abs(x)


def s_hypot_of(x, y):
    """Hypotenuse.hypotOf: the double nearest to the root"""
    if not (math.isfinite(x) and math.isfinite(y)):
        x, y = (x if math.isfinite(x) else 0.0), (y if math.isfinite(y) else 0.0)
    a, b = abs(x).as_integer_ratio()
    c, d = abs(y).as_integer_ratio()
    k = max(b, d)
    n = (a * (k // b)) ** 2 + (c * (k // d)) ** 2
    if n == 0:
        return 0.0
    j = k.bit_length() - 1
    lift = max(160 - n.bit_length() // 2, 0)
    r = isqrt(n << (2 * lift))
    m = 2 * r + (0 if r * r == n << (2 * lift) else 1)
    return m / (1 << (j + lift + 1))             # Python rounds a quotient of whole numbers once, ties to even


# ---- Scan
def s_any_below_lem(n, f):
    for i in range(n):
        if f(i):
            return True
    return False


def s_all_below(n, f):
    for i in range(n):
        if not f(i):
            return False
    return True


def s_count_below(n, f): return sum(1 for i in range(n) if f(i))


def s_collect(n, f):
    out = []
    for i in range(n):
        r = f(i)
        if r is not None:
            out.append(r[0])
    return tuple(out)


def s_gather(n, f):
    out = []
    for i in range(n):
        out.extend(f(i))
    return tuple(out)


def s_any(f, l):
    for x in l:
        if f(x):
            return True
    return False


def s_all(f, l):
    for x in l:
        if not f(x):
            return False
    return True


def s_filter(f, l): return tuple(x for x in l if f(x))


def s_concat_map(f, l):
    out = []
    for x in l:
        out.extend(f(x))
    return tuple(out)


def s_run(n, k): return tuple(range(n, n + k))
def s_member(r, l): return r in l
def s_add_new(l, x): return l if x in l else l + (x,)


def s_add_all(l, xs):
    for x in xs:
        l = s_add_new(l, x)
    return l


# ---- Sort
def s_insert(lt, x, l):
    for i, y in enumerate(l):
        if lt(x)(y):
            return l[:i] + (x,) + l[i:]
    return l + (x,)


def s_sort_onto(lt, acc, l):
    for x in l:
        acc = s_insert(lt, x, acc)
    return acc


def s_sort(lt, l): return s_sort_onto(lt, (), l)


def s_select(conflict, taken, l):
    for p in l:
        if not s_any(lambda q: conflict(q)(p), taken):
            taken = taken + (p,)
    return taken


def s_list_lt(l, m):
    for x, y in zip(l, m):
        if x != y:
            return x < y
    return len(l) < len(m)


# ---- Refusals
def s_first_below_lem(n, f):
    for i in range(n):
        r = f(i)
        if r is not None:
            return r
    return None


# ---- RegionRecord
def s_least(n, p, f): return min((f(i) for i in range(n) if p(i)), default=0)
def s_most(n, p, f): return max((f(i) for i in range(n) if p(i)), default=0)


# ---- Partition
DEFS = None                                      # the module translated fast


def s_merge_all(rs, es):
    """the same renaming, with the members of each class kept in a list"""
    rs = list(rs)
    members = {}
    for c, r in enumerate(rs):
        members.setdefault(r, []).append(c)
    for e in es:
        a = rs[e.lo] if e.lo < len(rs) else 0
        b = rs[e.hi] if e.hi < len(rs) else 0
        hi, lo = max(a, b), min(a, b)
        if hi == lo:
            continue
        moved = members.pop(hi, [])
        for c in moved:
            rs[c] = lo
        members.setdefault(lo, []).extend(moved)
    return tuple(rs)


@memo
def s_uncut(M):
    gone = set(DEFS.Partition__cut_all_lem(M))
    return tuple(e for e in DEFS.Partition__all_steps(M) if e not in gone)


@memo
def s_roots(M): return s_merge_all(s_run(0, M.height * M.width), s_uncut(M))


def walkable_at(M, c): return get_or(M.cells, c, 0) % 2 == 1


@memo
def s_labels(M):
    rs = s_roots(M)
    before = [0]
    for c in range(len(rs)):
        before.append(before[-1] + (walkable_at(M, c) and rs[c] == c))
    return tuple(1 + before[rs[c]] if walkable_at(M, c) else 0 for c in range(len(rs)))


@memo
def s_region_count(M):
    return sum(1 for c, r in enumerate(s_roots(M)) if walkable_at(M, c) and r == c)
