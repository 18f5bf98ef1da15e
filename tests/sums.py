"""Stored cases for crates/replay_entries and what has to come out, worked out from document 01 (port order 2 to 4,
'Tail', 'Refusal numbers') and document 02 (W1, W6) and from nothing of the crates. Python's floats are IEEE 754
binary64.

    python3 tests/sums.py cases      a line a case
    python3 tests/sums.py answers    what has to come out

tests/stored puts them at the front of crates/replay_entries/stdin and stdout.
"""
import functools
import itertools
import math
import struct
import sys

INF, NAN = float("inf"), float("nan")
SENTINEL = struct.unpack(">d", bytes.fromhex("3ff0000000000001"))[0]


def bits(x):
    return 0x7FF8000000000000 if math.isnan(x) else struct.unpack(">Q", struct.pack(">d", x))[0]


def word(limits, lengths):
    text = format(len(limits), "03b")
    for limit, length in list(zip(limits, lengths)) + [(1, 1)] * (4 - len(limits)):
        text += format(limit - 1, "06b") + format(length - 1, "06b")
    return int(text + "0" * 13, 2)


def fields(w):
    """Number of variables, four pairs of limit and length, and the spare bits of a word, good or not."""
    text = format(w, "064b")
    pairs = [(int(text[3 + 12 * v : 9 + 12 * v], 2) + 1, int(text[9 + 12 * v : 15 + 12 * v], 2) + 1) for v in range(4)]
    return int(text[:3], 2), pairs, text[51:]


def fault(w):
    """What is wrong with a header word, the first in the order of document 02, W5: variable, 4 for none, and cause; None of a good one."""
    variables, pairs, spare = fields(w)
    if variables > 4:
        return 4, 1
    for v, (limit, length) in enumerate(pairs):
        if v < variables and limit < length:
            return v, 2
        if v >= variables and limit + length > 2:
            return v, 3
    return (4, 4) if "1" in spare else (4, 5) if count(n for _, n in pairs) > 4096 else None


def read(w):
    """Limits and lengths of a good header word, else None."""
    variables, pairs, _ = fields(w)
    return None if fault(w) else ([p[0] for p in pairs[:variables]], [p[1] for p in pairs[:variables]])


def count(lengths):
    return math.prod(lengths)


def indices(lengths):
    return list(itertools.product(*[range(n) for n in lengths]))


def poly(limits, lengths, values):
    """Coefficients by index; the last variable fastest."""
    return limits, lengths, dict(zip(indices(lengths), values))


def smaller(a, b):
    return [min(x[v] for x in (a, b) if v < len(x)) for v in range(max(len(a), len(b)))]


def cut(limits, p):
    _, lengths, values = p
    new = [min(limits[v], lengths[v]) if v < len(lengths) else 1 for v in range(len(limits))]
    return limits, new, {i: values[i[: len(lengths)]] for i in indices(new)}


def join(minus, x, y):
    return x - y if minus else x + y


def combine(minus, a, b):
    limits = smaller(a[0], b[0])
    (_, na, va), (_, nb, vb) = cut(limits, a), cut(limits, b)
    zero = (0,) * len(limits)
    if count(nb) == 1:
        va[zero] = join(minus, va[zero], vb[zero])
        return limits, na, va
    if count(na) == 1:
        vb[zero] = join(minus, vb[zero], va[zero])
        return limits, nb, {i: -x for i, x in vb.items()} if minus else vb
    lengths = [max(x, y) for x, y in zip(na, nb)]
    out = {}
    for i in indices(lengths):
        x = 0.0
        if i in va:
            x = x + va[i]
        if i in vb:
            x = join(minus, x, vb[i])
        out[i] = x
    return limits, lengths, out


def linear(p):
    _, lengths, values = p
    zero = (0,) * len(lengths)
    for v, n in enumerate(lengths):
        one = tuple(1 if k == v else 0 for k in range(len(lengths)))
        if n >= 2 and all(x == 0 for i, x in values.items() if i not in (zero, one)):
            return values[zero], values[one], v
    return None


def is_constant(p, x):
    return count(p[1]) == 1 and p[2][(0,) * len(p[1])] == x


def times_number(c, p):
    return p[0], p[1], {i: c * x for i, x in p[2].items()}


def by_line(line, p, stage):
    """m times the other factor, one up in v, and the other times c, unless c is zero."""
    c, m, v = line
    limits, lengths, values = p
    new = [min(limits[k], n + 1) if k == v else n for k, n in enumerate(lengths)]
    one_less = lambda i: tuple(x - 1 if k == v else x for k, x in enumerate(i))
    up = limits, new, {i: values[one_less(i)] * m if i[v] else 0.0 for i in indices(new)}
    return up if c == 0 else combine(False, up, product(p, poly(limits, [1] * len(limits), [c]), stage - 1))


def general(a, b):
    limits = a[0]
    lengths = [min(l, x + y - 1) for l, x, y in zip(limits, a[1], b[1])]
    out = {i: 0.0 for i in indices(lengths)}

    def rows(x, y, r):
        v = len(r)
        if v == len(limits):
            out[r] = out[r] + a[2][x] * b[2][y]
            return
        rest = (0,) * (len(limits) - v - 1)
        for k in range(lengths[v]):
            js = range(max(0, k + 1 - b[1][v]), min(k + 1, a[1][v]))
            if lengths[v] > 1 and all(n == 1 for n in lengths[v + 1 :]):
                total = 0.0
                for j in js:
                    total = total + a[2][x + (j,) + rest] * b[2][y + (k - j,) + rest]
                out[r + (k,) + rest] = out[r + (k,) + rest] + total
            else:
                for j in js:
                    rows(x + (j,), y + (k - j,), r + (k,))

    rows((), (), ())
    return limits, lengths, out


def product(a, b, stage):
    if is_constant(a, 1.0) or is_constant(b, 1.0):
        return b if is_constant(a, 1.0) else a
    for x, y in ((a, b), (b, a)):
        if count(x[1]) == 1:
            return times_number(x[2][(0,) * len(x[1])], y)
    for x, y in ((a, b), (b, a)):
        if stage and linear(x):
            return by_line(linear(x), y, stage)
    return general(a, b)


def multiply(a, b):
    limits = smaller(a[0], b[0])
    if is_constant(a, 0.0) or is_constant(b, 0.0):
        return poly(limits, [1] * len(limits), [0.0])
    return product(cut(limits, a), cut(limits, b), 1)


def held(w, values):
    limits, lengths = read(w)
    return poly(limits, lengths, values[: count(lengths)])


def first_refusal(*tests):
    """Number, variable and cause of the first test that fails, 0 where none does; a test answers whether it holds, or the fault that it found."""
    for test, number in tests:
        found = test()
        if found is not True:
            return number, *(found or (0, 0))
    return 0


def good(w):
    return lambda: fault(w) or True


def good_limits(ls):
    """Limits that a constructor is given: the first that is none."""
    return next(((v, 6) for v, l in enumerate(ls) if not 1 <= l <= 64), True)


class Case:
    """Headers and coefficients of a and b, places lent, and the numbers: x a variable, an order, limits or an index; v a variable, c a constant."""

    def __init__(self, op, ah=0, a=(), bh=0, b=(), lent=8, scratch=0, v=0, x=(0, 0, 0, 0), at=0.0, c=0, variables=0):
        self.op, self.ah, self.a, self.bh, self.b, self.lent, self.scratch = op, ah, list(a), bh, list(b), lent, scratch
        self.v, self.x, self.at, self.c, self.variables = v, x, at, c, variables

    def numbers(self):
        v, x, at, c, variables = self.v, self.x, bits(self.at), self.c, self.variables
        of = {3: x[:2], 4: x[:2], 10: (variables, *x), 11: (c,), 12: (c, variables, *x), 13: (v, x[0]), 14: (v, at, x[0])}
        of.update({15: (v, at, variables, *x), 20: x, 24: (x[0], at), 25: (at,)})
        return of.get(self.op, ())

    def text(self):
        numbers = self.numbers()
        counts = self.op | len(self.a) << 8 | len(self.b) << 16 | self.lent << 24 | self.scratch << 32 | len(numbers) << 48
        return " ".join("%016x" % w for w in (counts, self.ah, self.bh, *numbers, *map(bits, self.a + self.b)))

    # what comes out

    def full(self, w, values):
        return lambda: count(read(w)[1]) <= len(values)

    def write(self, refusal, header, announced, values, clear=0):
        out = [SENTINEL] * self.lent
        scratch = ["s"] * self.scratch
        if refusal:
            head = "refused %d 64 %d %d" % refusal
        else:
            head = "done %016x" % header
            out[:announced] = values + [0.0] * (announced - len(values))
            scratch[:clear] = ["0"] * clear
        front = next((k for k, c in enumerate(scratch) if c != "0"), len(scratch))
        back = next((k for k, c in enumerate(reversed(scratch)) if c != "s"), len(scratch))
        return " ".join([head] + ["%016x" % bits(x) for x in out] + [str(front), str(back)])

    def poly(self, p, refusal, announced, clear=0):
        if refusal:
            return self.write(refusal, 0, 0, [])
        limits, lengths, values = p
        return self.write(0, word(limits, lengths), announced, [values[i] for i in indices(lengths)], clear)

    def answer(self):
        if self.op >= 20:
            return self.reading()
        if self.op >= 10:
            return self.constructor()
        if self.op in (1, 2, 5):
            def announced():
                (la, na), (lb, nb) = read(self.ah), read(self.bh)
                limits = smaller(la, lb)
                n = [[min(limits[k], x[k]) if k < len(x) else 1 for k in range(len(limits))] for x in (na, nb)]
                if self.op == 5:
                    return count(min(l, x + y - 1) for l, x, y in zip(limits, *n))
                return count(max(x, y) for x, y in zip(*n))
            r = first_refusal(
                (good(self.ah), 1), (good(self.bh), 1), (self.full(self.ah, self.a), 2), (self.full(self.bh, self.b), 2),
                (lambda: announced() <= 4096 and announced() <= self.lent, 5), (lambda: 8 * announced() <= self.scratch, 6))
            if r:
                return self.poly(None, r, 0)
            a, b = held(self.ah, self.a), held(self.bh, self.b)
            return self.poly(multiply(a, b) if self.op == 5 else combine(self.op == 2, a, b), 0, announced(), 8 * announced())
        tests = [(good(self.ah), 1), (self.full(self.ah, self.a), 2)]
        if self.op == 0:
            r = first_refusal(*tests, (lambda: count(read(self.ah)[1]) <= self.lent, 5))
            if r:
                return self.poly(None, r, 0)
            limits, lengths, values = held(self.ah, self.a)
            return self.poly((limits, lengths, {i: -x for i, x in values.items()}), 0, count(lengths))
        v, order = self.x[0], self.x[1]
        def lengths():
            n = list(read(self.ah)[1])
            n[v] = min(n[v], order + 1) if self.op == 3 else 1
            return n
        r = first_refusal(*tests, (lambda: v < len(read(self.ah)[0]), 3), (lambda: order < read(self.ah)[0][v], 4), (lambda: count(lengths()) <= self.lent, 5))
        if r:
            return self.poly(None, r, 0)
        limits, stored, values = held(self.ah, self.a)
        if self.op == 3:
            return self.poly((limits, lengths(), {i: values[i] for i in indices(lengths())}), 0, count(lengths()))
        if order >= stored[v]:
            return self.poly((limits, [1] * len(limits), {(0,) * len(limits): 0.0}), 0, count(lengths()))
        row = {i: values[i[:v] + (order,) + i[v + 1 :]] for i in indices(lengths())}
        return self.poly((limits, lengths(), row), 0, count(lengths()))

    def constructor(self):
        x, c, v, limits = self.at, self.c, self.v, list(self.x)
        room = lambda n: (lambda: n <= self.lent, 5)
        if self.op in (11, 16, 17):
            r = first_refusal(room(1))
            return self.write(r, word([], []), 1, [{11: float(c), 16: 0.0, 17: 1.0}[self.op]])
        if self.op in (10, 12):
            r = first_refusal((lambda: (4, 6) if self.variables > 4 else good_limits(limits[: self.variables]), 1), room(1))
            return self.write(r, 0 if r else word(limits[: self.variables], [1] * self.variables), 1, [0.0 if self.op == 10 else float(c)])
        if self.op in (13, 14):
            given, variables, first = [limits[0]], v + 1, [(lambda: v <= 3, 3)]
            all_limits = [limits[0]] * (min(v, 3) + 1)
        else:
            given, variables, first = limits[: self.variables], self.variables, [(lambda: v < self.variables, 3)]
            all_limits = given
        two = lambda: min(2, all_limits[v])
        r = first_refusal((lambda: (4, 6) if self.op == 15 and variables > 4 else good_limits(given), 1), *first, (lambda: two() <= self.lent, 5))
        if r:
            return self.write(r, 0, 0, [])
        lengths = [two() if k == v else 1 for k in range(variables)]
        return self.write(0, word(all_limits, lengths), two(), [0.0 if self.op == 13 else x, 1.0][: two()])

    def reading(self):
        limits = lambda: read(self.ah)[0]
        index = list(self.x)
        tests = [(good(self.ah), 1), (self.full(self.ah, self.a), 2)]
        if self.op == 20:
            tests += [(lambda: all(i == 0 for i in index[len(limits()) :]), 3), (lambda: all(i < l for i, l in zip(index, limits())), 4)]
        if self.op == 24:
            tests += [(lambda: len(limits()) == 1, 3), (lambda: index[0] < limits()[0], 4), (lambda: 0 < self.at < INF, 4)]
        if self.op == 25:
            tests += [(lambda: len(limits()) == 1, 3), (lambda: self.reaching() is not None, 11)]
        r = first_refusal(*tests)
        if r:
            return "refused %d 64 %d %d" % r
        if self.op == 25:
            return "done %016x" % self.reaching()
        ls, lengths, values = held(self.ah, self.a)
        stored = [values[i] for i in indices(lengths)]
        if self.op == 23:
            found = linear((ls, lengths, values))
            c, m, v = found or (0.0, 0.0, 0)
            return "done %d %016x %016x %d" % (found is not None, bits(c), bits(m), v)
        if self.op == 20:
            x = values.get(tuple(index[: len(ls)]), 0.0)
        elif self.op == 21:
            x = stored[0]
        else:
            total = 0.0
            for y in stored if self.op == 22 else stored[: index[0] + 1]:
                total = total + y
            x = total if self.op == 22 else (self.at - total) / self.at
        return "done %016x" % bits(x)

    def reaching(self):
        """The least k whose running sum is at least the wanted chance."""
        return next((k for k in range(count(read(self.ah)[1])) if functools.reduce(float.__add__, self.a[: k + 1], 0.0) >= self.at), None)


def cases():
    none, one3, two3 = word([], []), word([3], [1]), word([3], [2])
    line, wide, square, row = word([4], [3]), word([2, 3], [1, 2]), word([2, 2], [2, 2]), word([2], [2])
    zero_d, c3 = [-0.0], [5.0]
    specials = [-0.0, 0.0, INF, -INF, NAN, 5e-324, 1.7976931348623157e308, -1.5]
    # negate: signed zeros, infinities, NaN; full and one short; bad headers
    yield Case(0, word([8], [8]), specials, lent=8)
    yield Case(0, word([8], [8]), specials, lent=7)
    yield Case(0, word([8], [8]), specials[:7], lent=8)
    yield Case(0, word([8], [8]) + 1, specials, lent=8)
    # every cause of a fault at its edge, in each variable that it can name, and of two faults the first
    of = lambda variables, pairs, spare=0: variables << 61 | sum((l - 1) << 55 - 12 * v | (n - 1) << 49 - 12 * v for v, (l, n) in enumerate(pairs)) | spare
    ones = [(1, 1)] * 4
    put = lambda v, pair, rest=ones: rest[:v] + [pair] + rest[v + 1 :]
    faulty = [of(n, ones) for n in (4, 5, 6, 7)] + [of(4, put(v, (l, l + 1))) for v in range(4) for l in (1, 63)]
    faulty += [of(n, put(v, pair)) for n in range(4) for v in range(n, 4) for pair in ((2, 1), (1, 2), (64, 64))]
    faulty += [of(1, ones, 1 << bit) for bit in (0, 1, 12)] + [of(3, [(64, 64), (64, 64), (n, n), (1, 1)]) for n in (1, 2)]
    faulty += [2**64 - 1, of(2, put(0, (1, 2), put(3, (2, 1)))), of(1, put(0, (3, 4), put(1, (1, 2))), 1), of(3, [(64, 64)] * 3 + [(1, 1)], 1)]
    for w in faulty:
        yield Case(0, w, [1.0], lent=2)
        yield Case(21, w, [1.0])
    for w, u in zip(faulty[1:], faulty[5:]):
        for op in (1, 5):
            yield Case(op, w, [1.0], u, [1.0], lent=2, scratch=16)
            yield Case(op, none, [1.0], u, [], lent=2, scratch=16)
    yield Case(0, none, [2.0], lent=1)
    yield Case(0, none, [], lent=1)
    yield Case(0, none, [2.0], lent=0)
    # sums and differences
    pairs = [
        (none, [-0.0], none, [-0.0]), (none, [1.0], none, [2.0]), (none, [INF], none, [-INF]), (none, [NAN], none, [1.0]),
        (line, [-0.0, -0.0, 3.0], none, [-0.0]), (line, [-0.0, -0.0, 3.0], none, [2.0]), (none, [2.0], line, [-0.0, -0.0, 3.0]),
        (none, [-0.0], line, [0.0, -0.0, INF]), (line, [-0.0, 1.0, 2.0], line, [-0.0, 1.0, -2.0]), (line, [-0.0, -0.0, NAN], two3, [0.1, -0.0]),
        (two3, [0.1, 0.2], line, [0.3, -0.0, 1.0]), (line, [1.0, 2.0, 3.0], wide, [10.0, 20.0]), (square, [1.0, 2.0, 3.0, 4.0], line, [10.0, -0.0, 5.0]),
        (square, [1.0, -0.0, 3.0, 4.0], wide, [-0.0, 0.5]), (word([1], [1]), [7.0], line, [1.0, 2.0, 3.0]), (line, [1.0, 2.0, 3.0], word([1], [1]), [7.0]),
        (one3, [2.0], line, [1.0, -0.0, 3.0]), (line, [1e308, -1e308, 5e-324], line, [1e308, -1e308, 5e-324]),
        (word([1, 2], [1, 2]), [-0.0, -0.0], word([2, 1], [2, 1]), [-0.0, 6.0]), (word([2, 2, 2], [1, 1, 2]), [1.0, 2.0], row, [3.0, -0.0]),
    ]
    for op in (1, 2):
        for ah, a, bh, b in pairs:
            yield Case(op, ah, a, bh, b, lent=8, scratch=66)
    # refusals of sums, each at its edge and the lowest first
    ok = (line, [1.0, 2.0, 3.0], two3, [4.0, 5.0])
    for lent, scratch in ((3, 24), (2, 24), (3, 23), (2, 23), (0, 0), (4, 25)):
        yield Case(1, *ok, lent=lent, scratch=scratch)
        yield Case(2, *ok, lent=lent, scratch=scratch)
    yield Case(1, line + 1, ok[1], ok[2], ok[3], lent=0, scratch=0)
    yield Case(1, line, ok[1], 2**63 + 2**62, ok[3], lent=0, scratch=0)
    yield Case(1, line, ok[1][:2], two3, ok[3], lent=0, scratch=0)
    yield Case(1, line, ok[1], two3, ok[3][:1], lent=0, scratch=0)
    yield Case(2, word([64, 64], [64, 1]), [1.0] * 16, none, [1.0], lent=16, scratch=128)
    # products: zero, one, constant, linear from either side, general; special values; edges of result and scratch
    six, both, cube = word([6], [3]), word([4, 3], [2, 2]), word([2, 2, 2], [2, 2, 2])
    for ah, a, bh, b in (
        (none, [0.0], line, [INF, NAN, -0.0]), (line, [1.0, 2.0, 3.0], one3, [-0.0]), (word([1], [1]), [0.5], line, [0.0, 1.0, 2.0]),
        (none, [1.0], line, [-0.0, NAN, 3.0]), (line, [1.0, INF, 3.0], none, [1.0]), (none, [-2.0], line, [0.0, INF, 3.0]),
        (line, [0.1, 0.2, NAN], one3, [INF]),
        (two3, [3.0, 2.0], square, [1.0, 2.0, 3.0, 4.0]), (line, [1.0, 2.0, 3.0], row, [0.0, -1.5]), (line, [0.1, 0.2, 0.3], two3, [1.0, INF]),
        (square, [3.0, 0.0, 0.0, -0.0], both, [1.0, 2.0, 3.0, 4.0]), (square, [1.0, 2.0, 3.0, 4.0], square, [5.0, 6.0, 7.0, 8.0]),
        (six, [0.1, 0.2, 0.3], six, [0.7, -0.0, 1e308]), (both, [0.1, 0.2, 0.3, 0.4], both, [INF, -0.0, 5e-324, 0.7]),
        (six, [1.0, 2.0, 3.0], both, [4.0, 5.0, 6.0, 7.0]),
        (cube, [0.1, 0.2, 0.3, 0.4, 0.5, 0.6, 0.7, 0.8], cube, [1e16, 1.0, -1.0, 3.0, 0.1, 0.7, -0.0, 1e-16]),
    ):
        yield Case(5, ah, a, bh, b, lent=9, scratch=80)
    for lent, scratch in ((4, 32), (3, 32), (4, 31), (3, 31)):
        yield Case(5, square, [1.0, 2.0, 3.0, 4.0], square, [5.0, 6.0, 7.0, 8.0], lent=lent, scratch=scratch)
    # constructors
    for lent in (0, 1, 2):
        yield Case(16, lent=lent)
        yield Case(17, lent=lent)
        yield Case(11, c=2**32 - 1, lent=lent)
        yield Case(13, v=0, x=(2, 0, 0, 0), lent=lent)
        yield Case(13, v=3, x=(1, 0, 0, 0), lent=lent)
    given = [((3, 4, 0, 99), 2), ((1, 64, 1, 64), 4), ((0, 1, 1, 1), 1), ((1, 65, 1, 1), 2), ((1, 65, 1, 1), 1), ((1, 1, 1, 1), 5), ((7, 7, 7, 7), 0)]
    given += [((0, 65, 0, 0), 5), ((65, 0, 1, 1), 2), ((64, 64, 64, 65), 4), ((64, 64, 64, 65), 3)]
    for limits, n in given:
        yield Case(10, x=limits, variables=n, lent=3)
        yield Case(12, c=12345, x=limits, variables=n, lent=3)
        for v in (0, 1, 4):
            yield Case(15, at=-2.5, v=v, x=limits, variables=n, lent=3)
    for v, limit in ((0, 1), (3, 64), (4, 64), (4, 65), (0, 0), (2**64 - 1, 2)):
        yield Case(14, at=NAN, v=v, x=(limit, 0, 0, 0), lent=4)
    # readings
    cube = word([3, 4, 2], [2, 3, 1])
    values = [1.0, -0.0, 2.0, NAN, INF, -3.0]
    for index in ((0, 0, 0, 0), (1, 2, 0, 0), (1, 0, 0, 0), (2, 3, 1, 0), (3, 0, 0, 0), (0, 4, 0, 0), (0, 0, 2, 0), (0, 0, 0, 1),
                  (3, 0, 0, 1), (2**63, 0, 0, 0)):
        yield Case(20, cube, values, x=index)
    yield Case(20, cube, values[:5], x=(9, 9, 9, 9))
    yield Case(20, cube + 2, values, x=(9, 9, 9, 9))
    for w, a in ((none, [-0.0]), (line, [-0.0, 1.0, 2.0]), (cube, values), (line, [1.0]), (line + 4, [1.0])):
        yield Case(21, w, a)
        yield Case(22, w, a)
    yield Case(22, line, [1e16, 1.0, 1.0])
    for w, a in ((none, [3.0]), (two3, [3.0, 2.0]), (line, [3.0, 2.0, 0.0]), (line, [3.0, 2.0, 1.0]), (square, [3.0, 2.0, 0.0, -0.0]),
                 (square, [3.0, 0.0, 2.0, 0.0]), (square, [3.0, 0.0, 0.0, 0.0]), (square, [3.0, 0.0, 0.0, 1.0]), (square, [NAN, 0.0, INF, 0.0]),
                 (square, [0.0, 0.0, NAN, NAN]), (two3, [1.0])):
        yield Case(23, w, a)
    for k in (0, 1, 2, 3, 4, 2**64 - 1):
        yield Case(24, line, [0.25, 0.5, 0.25], x=(k, 0, 0, 0), at=1.0)
    # totals: the pair of document 02; below the sum, subnormal, the largest; those that are refused, and the first test
    totals = [1.0, 2.0, 0.5, 3.0, 5e-324, 2.225073858507201e-308, 1.7976931348623157e308]
    for total in totals + [0.0, -0.0, -1.0, -5e-324, INF, -INF, NAN]:
        yield Case(24, word([3], [3]), [0.25, 0.5, 0.25], x=(1, 0, 0, 0), at=total)
        yield Case(24, word([3], [3]), [0.25, 0.5, 0.25], x=(3, 0, 0, 0), at=total)
        yield Case(24, word([8], [8]), specials, x=(7, 0, 0, 0), at=total)
        yield Case(24, line, [1e16, 1.0, -1e16], x=(2, 0, 0, 0), at=total)
        yield Case(24, square, [0.25] * 4, x=(0, 0, 0, 0), at=total)
    yield Case(24, square, [0.25] * 4, x=(9, 0, 0, 0), at=NAN)
    yield Case(24, none, [0.25], x=(0, 0, 0, 0), at=1.0)
    yield Case(24, line, [0.25, 0.5], x=(9, 0, 0, 0), at=0.0)
    yield Case(24, line + 1, [0.25, 0.5], x=(9, 0, 0, 0), at=0.0)
    # the least k: at, below and above each sum; sums that fall; signed zeros, infinities, NaN; past the stored length
    for q in (0.0, -0.0, 0.25, 0.2500000000000001, 0.75, 1.0, 1.0000000000000002, -1.0, 5e-324, INF, -INF, NAN):
        for a in ([0.25, 0.5, 0.25], [-1.0, 0.5, 2.0], [2.0, -3.0, 2.0], [-0.0, -0.0, 0.0], [NAN, 1.0, 1.0], [0.5, INF, -INF], [-1.0, 0.5, 0.25]):
            yield Case(25, line, a + [9.0], at=q)
        yield Case(25, square, [0.25] * 4, at=q)
    yield Case(25, none, [1.0], at=0.5)
    yield Case(25, line, [1.0, 1.0], at=NAN)
    yield Case(25, line + 1, [1.0, 1.0], at=0.5)
    yield Case(25, word([64], [1]), [0.5], at=0.5)
    for op in (3, 4):
        for v, n in ((0, 0), (0, 1), (0, 2), (0, 3), (1, 0), (1, 2), (1, 3), (1, 4), (2, 0), (2, 1), (2, 2), (3, 0), (2**64 - 1, 0)):
            yield Case(op, cube, values, x=(v, n, 0, 0), lent=6)
        yield Case(op, cube, values, x=(1, 1, 0, 0), lent=3 if op == 3 else 1)
        yield Case(op, cube, values, x=(1, 1, 0, 0), lent=4 if op == 3 else 2)


def main():
    if sys.argv[1:] not in (["cases"], ["answers"]):
        print("tests/sums.py is used so: tests/sums.py cases, or tests/sums.py answers", file=sys.stderr)
        return 2
    for case in list(cases()):
        print(case.text() if sys.argv[1] == "cases" else case.answer())
    return 0


sys.exit(main())
