"""What crates/replay_shapes has to print, worked out from document 01 ('Header word', 'What a polynomial is here',
'Announced limits and lengths') and from nothing of the crates. Its output is stored as crates/replay_shapes/stdout:

    python3 tests/shapes.py > crates/replay_shapes/stdout

With the argument `words` it prints the header words as the program lists them.
"""
import sys


def word(limits, lengths, variables=None, spare=0, missing=()):
    """A header word, most significant first; `missing` sets fields of variables that are not there."""
    bits = format(len(limits) if variables is None else variables, "03b")
    fields = [(l - 1, n - 1) for l, n in zip(limits, lengths)] + [(0, 0)] * (4 - len(limits))
    for v, pair in missing:
        fields[v] = pair
    for limit, length in fields:
        bits += format(limit, "06b") + format(length, "06b")
    return int(bits + format(spare, "013b"), 2)


def read(w):
    """Number of variables, limits and lengths of a good header word; None of a bad one."""
    bits = format(w, "064b")
    variables = int(bits[:3], 2)
    pairs = [(int(bits[3 + 12 * v : 9 + 12 * v], 2) + 1, int(bits[9 + 12 * v : 15 + 12 * v], 2) + 1) for v in range(4)]
    if variables > 4 or int(bits[51:], 2) != 0:
        return None
    if any(length > limit for limit, length in pairs):
        return None
    if any(pair != (1, 1) for pair in pairs[variables:]):
        return None
    count = 1
    for _, length in pairs:
        count *= length
    if count > 4096:
        return None
    return variables, [p[0] for p in pairs[:variables]], [p[1] for p in pairs[:variables]]


def smaller(a, b):
    """The smaller limits; a variable that one operand lacks takes the other's."""
    limits = []
    for v in range(max(len(a), len(b))):
        have = [x[v] for x in (a, b) if v < len(x)]
        limits.append(min(have))
    return limits


def cut(limits, lengths):
    return [min(limits[v], lengths[v]) if v < len(lengths) else 1 for v in range(len(limits))]


def pair(kind, a, b, v=0):
    (_, la, na), (_, lb, nb) = a, b
    if kind == "substitution" and v >= len(la):
        return la, na
    limits = smaller(la, lb)
    x, y = cut(limits, na), cut(limits, nb)
    lengths = []
    for k, limit in enumerate(limits):
        if kind == "sum":
            lengths.append(max(x[k], y[k]))
        elif kind == "product":
            lengths.append(min(limit, x[k] + y[k] - 1))
        elif kind == "quotient":
            lengths.append(x[k] if y[k] == 1 else limit)
        else:
            more = (na[v] - 1) * (y[k] - 1)
            lengths.append(min(limit, 1 + more) if k == v else min(limit, x[k] + more))
    return limits, lengths


def one(kind, a, v=0, n=0):
    _, limits, lengths = a
    limits, lengths = list(limits), list(lengths)
    if kind == "series":
        lengths = [1 if x == 1 else limits[k] for k, x in enumerate(lengths)]
    elif kind == "power":
        if v == 0:
            return [], []
        lengths = [min(limits[k], v * (x - 1) + 1) for k, x in enumerate(lengths)]
    elif kind == "shift" and v < len(limits):
        limits[v] = max(1, limits[v] - n)
        lengths[v] = max(1, lengths[v] - n)
    elif kind == "term" and v < len(limits):
        lengths[v] = 1
    elif kind == "order" and v < len(limits):
        lengths[v] = min(lengths[v], n + 1)
    return limits, lengths


SHAPES = [
    word([], []),
    word([1], [1]),
    word([3], [2]),
    word([3], [3]),
    word([64], [64]),
    word([2, 2], [2, 2]),
    word([5, 4], [1, 3]),
    word([64, 64], [64, 64]),
    word([3, 1, 7], [2, 1, 5]),
    word([8, 8, 8, 8], [8, 8, 8, 8]),
    word([64, 2, 9, 33], [1, 1, 1, 1]),
    word([6, 6, 6, 6], [6, 5, 2, 3]),
]

WORDS = (
    SHAPES
    # every field at 0 and at its largest, the number of variables from 0 to 7
    + [word([1] * min(v, 4), [1] * min(v, 4), variables=v) for v in range(8)]
    + [2**64 - 1]
    + [word([64 if k == v else 1 for k in range(4)], [1] * 4) for v in range(4)]
    + [word([64 if k == v else 1 for k in range(4)], [64 if k == v else 1 for k in range(4)]) for v in range(4)]
    # a length above its limit, by one and by all
    + [word([3 if k == v else 1 for k in range(4)], [4 if k == v else 1 for k in range(4)]) for v in range(4)]
    + [word([1], [64]), word([63], [64]), word([63], [63])]
    # a field of a missing variable: its limit, its length, both
    + [word([2] * v, [2] * v, missing=[(v, (1, 0))]) for v in range(4)]
    + [word([2] * v, [2] * v, missing=[(3, (0, 1))]) for v in range(4)]
    + [word([2] * v, [2] * v, missing=[(3, (63, 63))]) for v in range(4)]
    # each spare bit
    + [word([3], [2], spare=2**k) for k in range(13)]
    + [word([3], [2], spare=2**13 - 1)]
    # counts: 4,096 in several ways, the next above that four lengths can make (4,100), and far above
    + [word([64, 64], [64, 64]), word([64, 64, 1], [64, 64, 1]), word([16, 16, 16], [16, 16, 16]), word([64, 8, 8, 1], [64, 8, 8, 1])]
    + [word([41, 50, 2], [41, 50, 2]), word([64, 64, 2], [64, 64, 2]), word([64, 64, 64], [64, 64, 2])]
    + [word([64, 64, 2], [64, 64, 1]), word([63, 65 - 1, 64], [63, 64, 1]), word([64] * 4, [64] * 4)]
)

ONES = (
    [("same", 0, 0), ("series", 0, 0)]
    + [("power", e, 0) for e in (0, 1, 2, 5, 2**32 - 1)]
    + [("shift", v, n) for v in (0, 1, 3) for n in (0, 1, 63)]
    + [("term", v, 0) for v in (0, 2)]
    + [("order", 0, 0), ("order", 1, 1), ("order", 3, 2**64 - 1)]
)

PAIRS = [("sum", 0), ("product", 0), ("quotient", 0), ("substitution", 0), ("substitution", 2)]


def told(made):
    limits, lengths = made
    count = 1
    for length in lengths:
        count *= length
    return "%016x %d" % (word(limits, lengths), count)


def main():
    if sys.argv[1:] == ["words"]:
        for name, words in (("SHAPES", SHAPES), ("WORDS", WORDS)):
            print(name, len(words))
            print("\n".join("    0x%016x," % w for w in words))
        return
    if sys.argv[1:]:
        print("tests/shapes.py takes no argument, or the one argument words", file=sys.stderr)
        sys.exit(2)
    for w in WORDS:
        header = read(w)
        if header is None:
            print("%016x bad" % w)
        else:
            variables, limits, lengths = header
            rest = [1] * (4 - variables)
            numbers = [variables] + limits + rest + lengths + rest
            count = 1
            for length in lengths:
                count *= length
            print("%016x good %s %d" % (w, " ".join(map(str, numbers)), count))
    for w in SHAPES:
        for kind, v, n in ONES:
            print("%s %016x %d %d %s" % (kind, w, v, n, told(one(kind, read(w), v, n))))
    for a in SHAPES:
        for b in SHAPES:
            for kind, v in PAIRS:
                print("%s %016x %016x %d %s" % (kind, a, b, v, told(pair(kind, read(a), read(b), v))))


main()
