#!/usr/bin/env python3
"""What `limits` has to print, worked out from document 01's rules and docs/DECISIONS.md, and compared with what it prints.

    tests/limits.py SEED COUNT PROGRAM.. -- RECIPE..

runs COUNT random sheets through both programs (each a command of one or more words). The limits, full lengths, the
verdict, the sums and the digits of every number are worked out here; the coefficients of the answer are taken from what
`recipe` prints, and so is every refusal. Prints
how many sheets there were and the first difference, if any. tests/limits starts it with the built programs."""
import random, struct, subprocess, sys

from decimals import printed
from refused import damaged, sentence, shape

NAMES = ["constant", "negate", "add", "subtract", "multiply", "divide", "power", "derivative", "taylor_expansion_of_coeff", "shift_down", "subst_var", "exp"]
USES = ["n", "a", "ab", "ab", "ab", "ab", "an", "avn", "avn", "avn", "abv", "a"]
HEAD = (
    "Each place: what it is, its number of variables, and of each variable the\n"
    "limit/most it stores. Operands are places, v is a variable, n a number.\n"
)
EDITION = "Edition 1: a power of 0 is one with its operand's limits.\n"
HELP = (
    "usage: limits [chance Q] [total T] < SHEET\n"
    "  SHEET      a recipe, one word of 16 hex digits a line\n"
    "  chance Q   how many tubes cover this chance, as 0.95\n"
    "  total T    take parts of this total, as 1, and not of the inputs' own\n"
    "Q and T are digits, or digits, a point and digits: at most 15 from the first\n"
    "that is not 0, at most 22 behind the point. Nothing was read.\n"
    "example: limits chance 0.95 < examples/chances.sheet\n"
)


def unpack(w):
    """The limits and the lengths of a header word."""
    n = w >> 61
    fields = [(w >> (55 - 6 * k)) & 63 for k in range(8)]
    return [fields[2 * k] + 1 for k in range(n)], [fields[2 * k + 1] + 1 for k in range(n)]


def pack(limits, lengths):
    w = len(limits) << 61
    for k, (l, n) in enumerate(zip(limits, lengths)):
        w |= (l - 1) << (55 - 12 * k) | (n - 1) << (49 - 12 * k)
    return w


def fields(w):
    return w >> 60, w >> 54 & 63, w >> 48 & 63, w >> 46 & 3, w >> 14 & (2**32 - 1)


def announce(w, known, edition):
    """What a step announces in an edition: limits and lengths."""
    kind, a, b, v, n = fields(w)
    if kind == 0 or kind == 6 and n == 0 and edition == 0:
        return [], []
    al, an = known[a]
    if kind == 1:
        return al[:], an[:]
    if kind == 6:
        return al[:], [min(l, n * (x - 1) + 1) for l, x in zip(al, an)]
    if kind == 11:
        return al[:], [1 if x == 1 else l for l, x in zip(al, an)]
    if 7 <= kind <= 9:
        less = lambda xs, one: [max(one, x - n) if k == v else x for k, x in enumerate(xs)]
        return less(al, 1), less(an, 1)
    bl, bn = known[b]
    if kind == 10 and v >= len(al):
        return al[:], an[:]
    limits = [min(l for l in ((al[k] if k < len(al) else None), (bl[k] if k < len(bl) else None)) if l) for k in range(max(len(al), len(bl)))]
    at = lambda xs, k: xs[k] if k < len(xs) else 1
    lengths = []
    for k, l in enumerate(limits):
        x, y, p = min(l, at(an, k)), min(l, at(bn, k)), at(an, v)
        lengths.append(
            max(x, y)
            if kind in (2, 3)
            else min(l, x + y - 1)
            if kind == 4
            else (x if y == 1 else l)
            if kind == 5
            else min(l, 1 + (p - 1) * (y - 1))
            if k == v
            else min(l, x + (p - 1) * (y - 1))
        )
    return limits, lengths


def operands(w, v, known):
    """The places that a step uses and that have the variable."""
    kind, a, b, _, _ = fields(w)
    return [x for x, used in ((a, "a" in USES[kind]), (b, "b" in USES[kind])) if used and v < len(known[x][0])]


ENDLESS = float("inf")
MANY = 2**32  # stands for itself and all that is longer


def full_lengths(w, full):
    """How long a step would be with no limits anywhere, in each of four variables; `full`: the places before it."""
    kind, a, b, v, n = fields(w)
    if kind == 0 or kind == 6 and n == 0:
        return [1] * 4
    x, y = full[a], full[b]
    p = x[v]
    out = []
    for k in range(4):
        if kind == 1:
            f = x[k]
        elif kind in (2, 3):
            f = max(x[k], y[k])
        elif kind == 4:
            f = x[k] + y[k] - 1
        elif kind == 5:
            f = x[k] if y[k] == 1 else ENDLESS
        elif kind == 6:
            f = n * (x[k] - 1) + 1
        elif kind < 10:
            f = x[k] if k != v or x[k] >= MANY else max(1, x[k] - n)
        elif kind == 11:
            f = 1 if x[k] == 1 else ENDLESS
        else:
            more = 0 if p == 1 or y[k] == 1 else (p - 1) * (y[k] - 1)
            f = (1 if k == v else x[k]) + more
        out.append(f if f == ENDLESS else min(f, MANY))
    return out


def made_of(w, full):
    """The operands whose terms a step is made of."""
    kind, a, b, v, n = fields(w)
    if kind == 0 or kind == 6 and n == 0:
        return []
    return [a] + ([b] if kind in (2, 3, 4, 5) or kind == 10 and full[a][v] != 1 else [])


def limits_text(inputs, steps, known):
    step = lambda p: steps[p - inputs]
    limit = lambda p, v: known[p][0][v] if v < len(known[p][0]) else 1
    who = lambda p: "place %d (%s)" % (p, "input" if p < inputs else "step")
    full = []
    for p, (l, n) in enumerate(known):
        full.append(n + [1] * (4 - len(n)) if p < inputs else full_lengths(step(p), full))

    def back(p, v):
        """One step back: through a shift, or to the first operand with the same limit; None where there is none."""
        if p < inputs:
            return None
        kind, a, _, u, _ = fields(step(p))
        if 7 <= kind <= 9 and u == v:
            return a
        return next((x for x in operands(step(p), v, known) if limit(x, v) == limit(p, v)), None)

    def way(p, v):
        """The place that decides a limit, its limit, and what shifts took off it."""
        start, shifts = p, []
        while True:
            if p >= inputs:
                kind, _, _, u, n = fields(step(p))
                if 7 <= kind <= 9 and u == v and n > 0:
                    shifts.append((p, n))
            q = back(p, v)
            if q is None:
                break
            p = q
        note = ""
        if shifts:
            took = sum(n for _, n in shifts)
            assert limit(p, v) - took == limit(start, v)
            note = " (%d, less %d by place %d%s)" % (limit(p, v), took, shifts[0][0], " and before" if len(shifts) > 1 else "")
        return p, note

    def further(p, v, memo):
        if p not in memo:
            memo[p] = p
            if p >= inputs and v < len(known[p][0]):
                best = p
                for x in reversed(operands(step(p), v, known)):
                    far = further(x, v, memo)
                    if limit(far, v) >= limit(best, v):
                        best = far
                memo[p] = best
        return memo[p]

    passing = lambda p: [v for v in range(len(known[p][0])) if full[p][v] > limit(p, v)]
    out = [HEAD]
    for p, (l, n) in enumerate(known):
        what = "input"
        if p >= inputs:
            kind, a, b, v, number = fields(step(p))
            used = USES[kind]
            words = [(" %d" % a, "a"), (" %d" % b, "b"), (" v%d" % v, "v"), (" n%d" % number, "n")]
            what = NAMES[kind] + "".join(word for word, field in words if field in used)
        out.append("place %d: %s; vars %d%s%s\n" % (p, what, len(l), ":" if l else "", "".join(" %d/%d" % x for x in zip(l, n))))
    for p in range(len(known)):
        for v in range(len(known[p][0])):
            here = "place %d variable %d: " % (p, v)
            if p < inputs:
                if known[p][1][v] == limit(p, v):
                    out.append(here + "fills its limit of %d and may have been cut before\n" % limit(p, v))
                continue
            kind, _, _, u, _ = fields(step(p))
            above = [x for x in operands(step(p), v, known) if limit(p, v) < limit(x, v)]
            if above and not (7 <= kind <= 9 and u == v):
                x = above[0]
                out.append(here + "limit falls from %d (place %d) to %d (place %d)\n" % (limit(x, v), x, limit(p, v), back(p, v)))
            if v in passing(p):
                f = full[p][v]
                by, note = way(p, v)
                need = "may go on without end" if f == ENDLESS else "needs more than 4000000000" if f == MANY else "needs %d" % f
                broken = f == ENDLESS or f == MANY or note
                out.append(here + need + (",\n  " if broken else ", ") + "its limit is %d%s, as %s has\n" % (limit(p, v), note, who(by)))
    last = len(known) - 1
    for v in range(len(known[last][0])):
        far, (by, note) = further(last, v, {}), way(last, v)
        more = ";\n  place %d went to %d" % (far, limit(far, v)) if limit(far, v) > limit(by, v) else ""
        out.append("variable %d of the answer ends at %d%s%sas %s does%s\n" % (v, limit(last, v), note, ",\n  " if note else ", ", who(by), more))

    def made_from(place):
        """All places that a place is made of, itself too."""
        made, seen = [place], set()
        while made:
            p = made.pop()
            if p not in seen:
                seen.add(p)
                made += made_of(step(p), full) if p >= inputs else []
        return seen

    out_of = lambda place: sorted(p for p in made_from(place) if p >= inputs and passing(p))
    lost = out_of(last)
    mixed = sorted(p for p in made_from(last) if p >= inputs and fields(step(p))[0] == 10 and out_of(fields(step(p))[1]))
    verdict = (
        "*** CUT: what lies past the limits of place %d is left out. ***\n" % lost[0]
        if lost
        else "*** WHOLE: with each input as it is stored, no limit left anything out. ***\n"
    )
    wrong = (
        "Place %d (subst_var) puts something for a variable of a table that was cut:\n"
        "the figures shown may be wrong, and not only incomplete.\n" % mixed[0]
        if mixed
        else ""
    )
    short = "No limit left anything out: the answer itself does not reach it.\n"
    if lost:
        by = who(way(lost[0], passing(lost[0])[0])[0])
        short = "The table was cut at place %d, by the limit of %s;\na larger limit belongs there.\n" % (lost[0], by)
    return "".join(out), verdict, wrong, not lost, short


def number(x):
    """A float for people, with Python's decimal module as the judge of the digits."""
    return printed(0x7FF8000000000000 if x != x else struct.unpack(">Q", struct.pack(">d", x))[0])


def power(e, x):
    """A number to a power by squaring, as `pow` makes one of a constant."""
    if e < 2:
        return x if e else 1.0
    reached, base = 1.0, x
    while e > 1:
        reached, base, e = (reached * base if e & 1 else reached), base * base, e >> 1
    return reached * base


def totals(steps, sums):
    """Of each place its total, or the number of the first place that stands in its way; sums: those of the inputs."""
    out = list(sums)
    for w in steps:
        kind, a, b, _, n = fields(w)
        if kind not in (0, 1, 2, 3, 4, 6, 9):
            out.append(len(out))
            continue
        if kind == 0 or kind == 6 and n == 0:
            out.append(float(n) if kind == 0 else 1.0)
            continue
        uses = [out[a]] + ([out[b]] if kind in (2, 3, 4) else [])
        bars = [x for x in uses if isinstance(x, int)]
        if bars:
            out.append(min(bars))
        elif kind == 1:
            out.append(-uses[0])
        elif kind == 6:
            out.append(power(n, uses[0]))
        elif kind == 9:
            out.append(uses[0])
        else:
            x, y = uses
            out.append(x + y if kind == 2 else x - y if kind == 3 else x * y)
    return out


def good(total):
    """Whether parts can be taken of a total."""
    return 0 < total < float("inf")


def total_text(origin, total, shown, lost):
    if not good(total):
        return "The total, %s, is %s:\n  not a finite number above zero, so that no part of it is told.\n" % (origin, number(total))
    return "Of %s in all, %s,\n  %s are shown here;\n  %s\n" % (number(total), origin, number(shown), lost % number(total - shown) if "%s" in lost else lost)


def totals_text(steps, inputs, total, given, shown, whole, one):
    """What is said of the total; total: a float, or the place that stands in its way."""
    if given is not None:
        return total_text("as given", given, shown, "%s are not.")
    if isinstance(total, int):
        kind = NAMES[fields(steps[total - inputs])[0]]
        return "No total follows from the inputs: place %d is of kind %s.\n%s" % (total, kind, "Parts are taken of a total of 1.\n" if one else "")
    return total_text("taking each input as whole", total, shown, "nothing lies past the limits." if whole else "%s lie past the limits.")


def chance_text(chance, one, xs, total, short):
    """How many tubes cover a chance, in an answer of one variable."""
    if chance is None:
        return ""
    if not one:
        return "How many tubes cover a chance is told for an answer of one variable only.\n"
    if not good(total):
        return "With no total above zero, no number of tubes covers a chance.\n"
    for k, sum_ in enumerate(running(xs)):
        if sum_ >= chance * total:
            return "%d %s a chance of %s.\n" % (k, "tube covers" if k == 1 else "tubes cover", number(chance))
    return "No number of tubes shown covers a chance of %s.\n%s" % (number(chance), short)


def cell(column, width, text):
    """A text in a column; one that is too wide ends its line, and the next column begins below at its own place."""
    return text + (" " * (width - len(text)) if len(text) < width else "\n" + " " * (column + width))


def running(xs):
    """The sums of the first 1, 2, .. numbers, from +0.0 upwards."""
    total, out = 0.0, []
    for x in xs:
        total += x
        out.append(total)
    return out


def inputs_text(heads, coefficients):
    """What was put in."""
    out = ["What was put in: of each input its sum, and its first coefficients.\n"] if heads else []
    for place, ((limits, lengths), xs) in enumerate(zip(heads, coefficients)):
        filled = "fills its limit" if any(l == n for l, n in zip(limits, lengths)) else "below its limit"
        out.append("place %d: sum %s, %s\n" % (place, number(running(xs)[-1]), filled if limits else "a constant"))
        shown = [number(x) for x in xs[:4]]
        out.append("  " + "".join(cell(2 + 15 * k, 15, t) for k, t in enumerate(shown[:-1])) + shown[-1] + "\n")
    return "".join(out)


def figures_text(word, xs, total):
    """The figures of the answer; total is None where there is nothing to take parts of."""
    lengths = unpack(word)[1]
    one = len(lengths) == 1
    names = "failures chance or count     this many or fewer" + ("" if total is None else "  more than this many")
    out = [(names if one else "index          coefficient") + "\n"]
    for p, (x, sum_) in enumerate(zip(xs, running(xs))):
        index, rest = [], p
        for n in reversed(lengths):
            index.insert(0, rest % n)
            rest //= n
        text = "[" + " ".join(map(str, index)) + "]"
        if not one:
            out.append(cell(0, 15, text) + number(x) + "\n")
        elif total is None:
            out.append(cell(0, 9, text) + cell(9, 20, number(x)) + number(sum_) + "\n")
        else:
            out.append(cell(0, 9, text) + cell(9, 20, number(x)) + cell(29, 20, number(sum_)) + number((total - sum_) / total) + "\n")
    return "".join(out)


def floating(digits):
    return struct.unpack(">d", bytes.fromhex(digits))[0]


def asked(rng):
    """Arguments, whether they are right, and the chance and the total that they give."""
    typed = lambda: rng.choice(["0", "0.95", "0.5", "1", "1.0", "2", "0.%d" % rng.randrange(10**6), "%d.25" % rng.randrange(300), "0.000000000000000000001"])
    wrong = lambda: rng.choice(["", "-1", "1e3", ".5", "5.", "0.9.5", "inf", "1234567890123456", "0.95 ", "+1", "a"])
    q, t = typed(), typed()
    kind = rng.choice(["none"] * 4 + ["chance", "total", "both", "turned", "wrong"])
    if kind == "wrong":
        words = [["help"], ["chance"], ["chance", wrong()], ["total", wrong()], ["chance", q, "chance", q], ["chance", q, "total"]]
        return rng.choice(words + [["Chance", q], ["chances", q], ["chance", q, "total", wrong()], ["total", t, "chance", q, "x"]]), False, None, None
    words = {"none": [], "chance": ["chance", q], "total": ["total", t], "both": ["chance", q, "total", t], "turned": ["total", t, "chance", q]}
    given = words[kind]
    return given, True, float(q) if "chance" in given else None, float(t) if "total" in given else None


def told(text, said, chance=None, given=None):
    """What `limits` prints for a sheet, said what `recipe` printed for it; chance and given: what its arguments give."""
    if said.startswith("refused"):
        return said + sentence(text.encode("latin-1"), *map(int, said.split()[1:]), announce)
    words = [int(l, 16) for l in text.split()]
    inputs, count, edition = words[0] >> 56, words[0] >> 48 & 255, words[0] >> 44 & 15
    known, steps = [unpack(w) for w in words[1 : 1 + inputs]], words[-count:]
    heads, coefficients, at = known[:], [], 1 + inputs
    for _, lengths in heads:
        stored = 1
        for n in lengths:
            stored *= n
        coefficients.append([floating("%016x" % w) for w in words[at : at + stored]])
        at += stored
    for w in steps:
        known.append(announce(w, known, edition))
    answer = said.split("\n")[1:-1]
    xs = [floating(l) for l in answer[1:]]
    limits, verdict, wrong, whole, short = limits_text(inputs, steps, known)
    word = int(answer[0], 16)
    own = totals(steps, [running(c)[-1] for c in coefficients])[-1]
    total = given if given is not None else 1.0 if isinstance(own, int) else own
    said = totals_text(steps, inputs, own, given, running(xs)[-1], whole, word >> 61 == 1)
    said += chance_text(chance, word >> 61 == 1, xs, total, short)
    figures = figures_text(word, xs, total if good(total) else None)
    first = EDITION if edition else ""
    return first + limits + inputs_text(heads, coefficients) + verdict + wrong + said + figures


def fault(rng):
    """A word that is no header, by each cause."""
    v, spare = rng.randrange(4), rng.randrange(13)
    long = pack([2] * 4, [3 if k == v else 1 for k in range(4)])
    return rng.choice([5 << 61, long, 1 << (49 - 12 * v), 1 << (55 - 12 * v), 1 << spare, pack([64] * 3, [64, 64, 2])])


def sheet(rng):
    inputs, count = rng.randint(0, 5), rng.randint(1, 6)
    equal = rng.choice([0, 0, 3, 4, 8])  # limits that are all alike, on purpose: no limit is below another
    lines, coefficients = [], []
    for _ in range(inputs):
        n = rng.choice([0, 1, 1, 1, 2, 2, 3, 4])
        limits = [min(equal, 4) if equal and n > 2 else equal or rng.randint(1, 9 if n < 3 else 4) for _ in range(n)]
        lengths = [rng.randint(1, l) for l in limits]
        lines.append(pack(limits, lengths))
        stored = 1
        for l in lengths:
            stored *= l
        for _ in range(stored):
            small, share, large = float(rng.randint(-9, 9)), rng.random(), float(rng.randint(0, 2**53))
            coefficients.append(rng.choice([small, -0.0, 0.5, share, 2.0**53, float("inf"), float("nan"), 1e300, large]))
    steps = []
    for i in range(count):
        p = inputs + i
        kind = rng.choice([0, 1, 2, 3, 4, 4, 4, 5, 6, 7, 8, 9, 10, 11]) if p else 0
        used = USES[kind]
        a, b = (rng.randrange(p) if "a" in used else 0), (rng.randrange(p) if "b" in used else 0)
        v, n = (rng.choice([0, 0, 0, 1, 2, 3]) if "v" in used else 0), (rng.randint(0, 3) if "n" in used else 0)
        if kind == 6 and rng.random() < 0.2:
            n = rng.choice([2**31, 2**32 - 1])  # longer than can be counted, where it is done twice
        steps.append(kind << 60 | a << 54 | b << 48 | v << 46 | n << 14)
    if inputs and rng.random() < 0.08:
        lines[rng.randrange(inputs)] = fault(rng)
    if rng.random() < 0.03:
        steps[rng.randrange(count)] |= rng.choice([1, 1 << 63, 1 << 50])
    edition = rng.choice([0, 0, 0, 1])
    words = [inputs << 56 | count << 48 | edition << 44] + lines + [struct.unpack(">Q", struct.pack(">d", x))[0] for x in coefficients] + steps
    if rng.random() < 0.3:
        return damaged(rng, words, pack).decode("latin-1")
    return "".join("%016x\n" % w for w in words)


def main():
    given = sys.argv[1:]
    between = given.index("--") if "--" in given else 0
    if not (all(word.isdecimal() for word in given[:2]) and 2 < between < len(given) - 1):
        print("tests/limits.py is used so: tests/limits.py SEED COUNT PROGRAM.. -- RECIPE..", file=sys.stderr)
        return 2
    rng, count = random.Random(int(given[0])), int(given[1])
    limits, recipe = given[2:between], given[between + 1 :]
    run = lambda program, text: subprocess.run(program, input=text.encode("latin-1"), stdout=subprocess.PIPE).stdout.decode()
    kinds = {"refused": 0, "WHOLE": 0, "CUT": 0, "usage": 0, "cover a chance": 0, "No number of tubes": 0}
    sentences = set()
    for i in range(count):
        text = sheet(rng)
        words, right, chance, given = asked(rng)
        expected, found = told(text, run(recipe, text), chance, given) if right else HELP, run(limits + words, text)
        if expected != found:
            print("sheet %d differs, arguments %s:\n%s\nexpected:\n%s\nfound:\n%s" % (i, words, text, expected, found))
            return 1
        if any(len(l) > 80 for l in found.split("\n")):
            print("sheet %d has a line of more than 80 columns:\n%s" % (i, found))
            return 1
        for k in kinds:
            kinds[k] += k in found
        if found.startswith("refused"):
            sentences.add(shape(found))
    said = ", ".join("%s %d" % x for x in kinds.items())
    print("%d sheets, 0 differences (%s; %d sentences of refused ones)" % (count, said, len(sentences)))
    return 0


if __name__ == "__main__":
    sys.exit(main())
