#!/usr/bin/env python3
"""Writes the stored cases of the crate replay_decimals and what has to come out, worked out from docs/REFERENCE.md,
section 10: floats printed, with Python's decimal module as the judge of the digits, and texts read, with Python's
float() as the judge of the number. Nothing of the crates is asked.

    tests/decimals.py      writes crates/replay_decimals/stdin and stdout, the same every time

Printed: every power of two and of ten with its neighbours, halves, ties, floats near ties and near a whole number,
the subnormal ones, the ends of every range, and 10,000 random floats. Read: right texts of every length, random ones,
and each of them damaged.
"""
import os
import random
import re
import struct
import sys
from decimal import Context, Decimal, ROUND_HALF_EVEN, localcontext

CRATE = os.path.join(os.path.dirname(os.path.dirname(os.path.abspath(__file__))), "crates", "replay_decimals")
SEED = 20261115
MINUS = 1 << 63


def word(x):
    return struct.unpack("<Q", struct.pack("<d", x))[0]


def value(w):
    return struct.unpack("<d", struct.pack("<Q", w))[0]


def printed(w):
    """The text of the float with the word w."""
    x = value(w)
    if x != x:
        return "nan"
    minus = "-" if w >= MINUS else ""
    if abs(x) == float("inf"):
        return minus + "inf"
    if abs(x) >= 2.0 ** 63:
        return "bits 0x%016x" % w
    with localcontext(Context(prec=2000, rounding=ROUND_HALF_EVEN)):
        exact = abs(Decimal(x))
        near = exact.quantize(Decimal("0.000000001"))
    if near == 0 and exact != 0:
        return ">-0.000000001" if minus else "<0.000000001"
    return ("" if near == exact else "~") + minus + "{:f}".format(near).rstrip("0").rstrip(".")


def read(text):
    """The line for a text: the word of the float that it is read as, or that it is refused."""
    right = re.fullmatch(rb"([0-9]+)(?:\.([0-9]+))?", text)
    if not right:
        return "refused"
    whole, part = right.group(1), right.group(2) or b""
    if len((whole + part).lstrip(b"0")) > 15 or len(part) > 22:
        return "refused"
    return "%016x" % word(float(text))


def edges():
    """Words of floats at the edges."""
    def near(x):
        w = word(x)
        return [v for u in (w - 1, w, w + 1) if 0 <= u < MINUS for v in (u, u + MINUS)]

    yield from (0, MINUS, 1, MINUS + 1, 0x000fffffffffffff, 0x0010000000000000, 0x7fefffffffffffff, 0xffefffffffffffff)
    yield from (0x7ff0000000000000, 0xfff0000000000000, 0x7ff8000000000000, 0x7ff0000000000001, 0xffffffffffffffff)
    yield from (word(2.0 ** e) for e in range(-1074, 1024))
    for e in list(range(-1074, -1070)) + list(range(-1024, -1019)) + list(range(-110, 71)) + [512, 1023]:
        yield from near(2.0 ** e)
    for e in range(-30, 23):
        yield from near(float("1e%d" % e))
    for k in range(1, 40):
        for x in (k / 2, k / 512, k / 1024, (2 * k + 1) / 1024 + 2.0 ** k):
            yield from near(x)
    for k in range(1, 60):
        yield from near(k * 1e-9)
        yield from near((k + 0.5) * 1e-9)
    for x in (0.9999999995, 0.99999999949999, 1 - 2.0 ** -53, 2.0 ** 53 - 1, 2.0 ** 52 + 0.5, 2.0 ** 43 + 1 / 1024):
        yield from near(x)


def drawn(r, i):
    """The word of a random float: of any word, below one, short in decimal, short in binary, or a tie."""
    kind = i % 5
    if kind == 0:
        return r.getrandbits(64)
    if kind == 1:
        return word(r.random())
    if kind == 2:
        return word(r.randrange(-10 ** 6, 10 ** 6) / 10 ** r.randrange(0, 9))
    if kind == 3:
        return word(r.randrange(1, 1 << 53) / 2.0 ** r.randrange(0, 110)) | r.getrandbits(1) << 63
    return word((2 * r.randrange(0, 1 << r.randrange(1, 50)) + 1) / 1024)


def digits(r, n):
    return "".join(r.choice("0123456789") for _ in range(n))


def texts(r):
    """Right texts and damaged ones."""
    right = ["0", "0.0", "00", "007", "1", "0.95", "1.0", "0.1", "2.5", "999999999999999", "0.999999999999999",
             "1000000000000000", "9999999999999999", "100000000000000.0", "0" * 40, "0" * 40 + ".5", "9007199254740993",
             "0." + "0" * 21 + "1", "0." + "0" * 22 + "1", "0." + "0" * 22, "0." + "0" * 23, "1." + "0" * 14,
             "1." + "0" * 15, "0.0000001" + "2" * 14, "0.0000001" + "2" * 15, "123456789012345." + "0" * 3]
    for n in range(1, 18):
        for k in range(0, 25):
            right.append(digits(r, n) + ("." + digits(r, k) if k else ""))
            right.append("0." + "0" * k + digits(r, n))
    right += [repr(round(r.random(), r.randrange(1, 16))) for _ in range(300)]
    for text in right:
        yield text
        at = r.randrange(len(text) + 1)
        yield text[:at] + r.choice("./:,-+eE xX_~<\n\t\0\x7f\u00e9") + text[at:]
        yield text[:at] + text[at + 1:]
    yield from ("", ".", "1.", ".5", "-1", "+1", "1e3", " 1", "1 ", "1\n", "0x10", "nan", "inf", "~0.5", "<0.000000001",
                "1.2.3", "1..2", "1,5", "1_000", "\u0661", "1\0", "/0", ":0", "0:", "0/")


def main():
    if len(sys.argv) > 1:
        print("tests/decimals.py takes no argument", file=sys.stderr)
        return 2
    r = random.Random(SEED)
    words = list(edges()) + [drawn(r, i) for i in range(10000)]
    read_texts = [text.encode("utf-8") for text in texts(r)]
    with open(os.path.join(CRATE, "stdin"), "wb") as cases:
        cases.write(b"".join(b"%016x\n" % w for w in words))
        cases.write(b"".join(b"%016x " % len(text) + text for text in read_texts))
    answers = [printed(w) for w in words] + [read(text) for text in read_texts]
    with open(os.path.join(CRATE, "stdout"), "w", encoding="utf-8") as out:
        out.write("".join(line + "\n" for line in answers))
    print(len(words), "floats,", sum(line.startswith("~") for line in answers), "marked;", len(read_texts), "texts,",
          sum(line == "refused" for line in answers), "refused")
    return 0


if __name__ == "__main__":
    sys.exit(main())
