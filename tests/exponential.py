"""tests/exponential.py SEED COUNT SERVE..: the exponential of a constant, of the archive, against document 02, W13.

SERVE.. starts tests/exponential.c. Of every constant from -8 to 8 the answer has to be done, its float within 2^-40,
relative, of the sum of the series' first 120 terms, a fraction of whole numbers; and its bits those of the steps of
docs/REFERENCE.md, 4.15, done here in Python's floats. Any other float is refused by 12 at place 64 and nothing is
written. The constants: both zeros, both edges and their neighbours, the smallest floats, every power of two, quarters,
infinities, NaNs and what else may be taken for a number, then COUNT random ones: over the range, near its edges, of any
size, and of any bits."""
import random
import struct
import subprocess
import sys

UNTOUCHED, REFUSED = 77, 12 + 256 * 64
MINUS, EIGHT, LARGEST = 1 << 63, 0x4020000000000000, 0x7FEFFFFFFFFFFFFF
TERMS, BITS = 120, 40


def value(word):
    return struct.unpack("<d", struct.pack("<Q", word))[0]


def word(x):
    return struct.unpack("<Q", struct.pack("<d", x))[0]


def series(top, bottom):
    """The first terms of the series at top / bottom, by Horner's rule on whole numbers: a fraction."""
    sum_top, sum_bottom = 1, 1
    for k in range(TERMS - 1, 0, -1):
        sum_bottom *= k * bottom
        sum_top = sum_bottom + top * sum_top
    return sum_top, sum_bottom


def distance(x, head):
    """How far head is from the exact value at x, over that value: a fraction."""
    top, bottom = series(*x.as_integer_ratio())
    a, b = head.as_integer_ratio()
    return abs(a * bottom - top * b), abs(top) * b


def steps(x):
    t, h = x + 9.0, 1.0
    for k in range(71, 0, -1):
        h = 1.0 + t / k * h
    return h / 8103.083927575384


def edges():
    near = [EIGHT + d for d in range(-3, 4)] + [0, 1, 2, 3, 2 ** 52 - 1, 2 ** 52, 2 ** 52 + 1, LARGEST, LARGEST + 1]
    near += [LARGEST + 2, 0x7FF8000000000000, 0x7FF0000000000001, 2 ** 63 - 1]
    near += [exponent << 52 for exponent in range(2047)] + [word(quarter / 4) for quarter in range(0, 37)]
    return [w | sign for w in near for sign in (0, MINUS)]


def drawn(pick):
    way = pick.randrange(8)
    if way < 4:
        return word(pick.uniform(-8, 8))
    if way == 4:
        return (EIGHT + pick.randrange(-1000, 1000)) | pick.choice((0, MINUS))
    if way == 5:
        return word(pick.choice((1, -1)) * 2.0 ** pick.uniform(-60, 3))
    if way == 6:
        return word(pick.randrange(-128, 129) / 16 + pick.uniform(-1, 1) * 2.0 ** -pick.randrange(20, 50))
    return pick.randrange(2 ** 64)


def main():
    seed, count = int(sys.argv[1]), int(sys.argv[2])
    pick, serve = random.Random(seed), subprocess.Popen(sys.argv[3:], stdin=subprocess.PIPE, stdout=subprocess.PIPE)
    worst, inside, outside = (0, 1), 0, 0
    for asked in edges() + [drawn(pick) for _ in range(count)]:
        serve.stdin.write(struct.pack("<Q", asked))
        serve.stdin.flush()
        answer, told = struct.unpack("<2Q", serve.stdout.read(16))
        x, head = value(asked), value(told)
        if not -8 <= x <= 8:
            outside += 1
            if (answer, told) != (REFUSED, UNTOUCHED):
                sys.exit("seed %d: %016x is outside, and answered %x with %016x" % (seed, asked, answer, told))
            continue
        inside += 1
        if answer != 0 or told != word(steps(x)):
            sys.exit("seed %d: %016x answered %x with %016x, and the steps give %016x" % (seed, asked, answer, told, word(steps(x))))
        far = distance(x, head)
        if far[0] << BITS > far[1]:
            sys.exit("seed %d: %016x answered %016x, which is too far from the exact value" % (seed, asked, told))
        if far[0] * worst[1] > worst[0] * far[1]:
            worst = far
    nearest = (worst[1] // worst[0]).bit_length() - 1
    print("exponentials of %d constants within 2^-%d of the exact ones, %d refused" % (inside, nearest, outside))


if __name__ == "__main__":
    main()
