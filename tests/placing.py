#!/usr/bin/env python3
"""Writes the stored cases of the crate replay_placing and what has to come out, worked out from document 02, W4, with a
map of the pool's places, busy or not, and from nothing of the crates.

    tests/placing.py      writes crates/replay_placing/stdin and stdout, the same every time

First recipes worked out by hand, each with its answer here: an exact fit, the lowest gap and not the best, a step's own
operands, a value that nobody reads, operand fields that a kind does not use, both operands of a substitution into a
missing variable, a power of zero. Then a few that are refused, and 600 random ones, up to 64 places, in both editions.
"""
import os
import random

from limits import USES, announce, fields, pack, unpack

CRATE = os.path.join(os.path.dirname(os.path.dirname(os.path.abspath(__file__))), "crates", "replay_placing")
SEED = 20261116


def step(kind, a=0, b=0, v=0, n=0):
    return kind << 60 | a << 54 | b << 48 | v << 46 | n << 14


def line(length, limit=64):
    """The header word of one variable."""
    return pack([limit], [length])


def count(lengths):
    product = 1
    for n in lengths:
        product *= n
    return product


def read_by(w):
    """The places that a step reads: named in an operand that its kind uses."""
    kind, a, b, _, _ = fields(w)
    return {x for x, used in ((a, "a" in USES[kind]), (b, "b" in USES[kind])) if used}


def placed(inputs, steps, counts):
    """The offset of each step, and how long the pool has to be. A place of the pool is busy while a part that it is in
    has a reader that is this step or a later one."""
    offsets, length = [], 0
    for i, wanted in enumerate(counts):
        busy = [False] * (sum(counts) + 1)
        for j in range(i):
            if any(inputs + j in read_by(w) for w in steps[i:]):
                for place in range(offsets[j], offsets[j] + counts[j]):
                    assert not busy[place]
                    busy[place] = True
        at = next(o for o in range(len(busy)) if not any(busy[o : o + wanted]))
        offsets.append(at)
        length = max(length, at + wanted)
    return offsets, length


def answer(edition, headers, steps):
    known = [unpack(w) for w in headers]
    for w in steps:
        known.append(announce(w, known, edition))
    counts = [count(lengths) for _, lengths in known]
    k = len(headers)
    offsets, length = placed(k, steps, counts[k:])
    return "accepted %d %d %d %d" % (length, max(counts[k:]), sum(counts[:k]), offsets[-1])


def by_hand():
    """Counts are made by `negate` (kind 1) of inputs that are as long."""
    ins = [line(c) for c in (2, 3, 1, 4)]
    # a chain of 2, 3, 2, 4: at 0, 2, 0, 2
    chain = [step(1, 0), step(2, 4, 1), step(9, 5, n=1), step(2, 6, 3)]
    yield 0, ins, chain, "accepted 6 4 10 2"
    # [0, 3) and [4, 6) are free: the sixth, of 2 places, goes to 0 and the last, which reads it, to 4
    gaps = [step(1, 1), step(1, 2), step(1, 0), step(1, 2), step(2, 4, 6), step(2, 7, 0), step(2, 5, 9)]
    yield 0, ins, gaps, "accepted 10 3 10 4"
    # nobody reads step 1, of 4 places: it has its part, and the next may have it again
    yield 0, ins, [step(1, 0), step(1, 3), step(1, 4)], "accepted 6 4 10 2"
    # a constant uses no operand: its field a, which is 0, does not read place 0, a step where there is no input
    yield 0, [], [step(0, n=7), step(0, n=8), step(0, n=9)], "accepted 1 1 0 0"
    # b of a substitution into a missing variable is read, a of a power of zero too
    yield 0, ins, [step(1, 3), step(1, 0), step(10, 5, 4, v=3), step(1, 2)], "accepted 8 4 10 0"
    yield 1, ins, [step(1, 3), step(6, 4, n=0), step(1, 1)], "accepted 5 4 10 0"
    yield 0, ins, [step(1, 3), step(6, 4, n=0), step(1, 1)], "accepted 5 4 10 0"


REFUSED = [
    (2, [], [step(0)], "refused 7 64 0 0"),
    (0, [], [], "refused 7 64 0 0"),
    (0, [line(1)] * 17, [step(0)], "refused 7 64 0 0"),
    (0, [line(2), 7 << 61], [step(1)], "refused 1 1 4 1"),
    (0, [line(2)], [step(1), step(1, 2)], "refused 7 2 0 0"),
    (0, [line(2)], [step(7, v=1, n=1)], "refused 3 1 0 0"),
    (0, [line(2, 5)], [step(7, n=5)], "refused 4 1 0 0"),
    (0, [pack([64, 64], [64, 64]), pack([64, 64, 2], [1, 1, 2])], [step(4, 0, 1)], "refused 5 2 0 0"),
]


def drawn(rng):
    edition, k = rng.choice([0, 0, 1]), rng.randint(0, 6)
    headers = []
    for _ in range(k):
        limits = [rng.randint(1, 9) for _ in range(rng.choice([0, 1, 1, 1, 2, 2, 3]))]
        headers.append(pack(limits, [rng.randint(1, l) for l in limits]))
    known, steps = [unpack(w) for w in headers], []
    many = rng.choice([1, 2, 5, 12, 30, 64 - k])
    near = rng.choice([3, 8, 64])
    while len(steps) < many:
        p = len(known)
        kind = rng.choice([0, 1, 1, 2, 2, 3, 4, 4, 5, 6, 7, 8, 9, 10, 10]) if p else 0
        used, first = USES[kind], max(0, p - near)
        a, b = (rng.randrange(first, p) if c in used else 0 for c in "ab")
        v, n = (rng.randint(0, 3) if "v" in used else 0), (rng.randint(0, 3) if "n" in used else 0)
        if 7 <= kind <= 9 and (v >= len(known[a][0]) or n >= known[a][0][v]):
            continue
        w = step(kind, a, b, v, n)
        told = announce(w, known, edition)
        if count(told[1]) <= 4096:
            steps.append(w)
            known.append(told)
    return edition, headers, steps, None


def main():
    rng = random.Random(SEED)
    cases = list(by_hand()) + REFUSED + [drawn(rng) for _ in range(600)]
    with open(os.path.join(CRATE, "stdin"), "w") as given, open(os.path.join(CRATE, "stdout"), "w") as wanted:
        for edition, headers, steps, told in cases:
            words = [len(headers) | len(steps) << 8 | edition << 16] + headers + steps
            given.write(" ".join("%016x" % w for w in words) + "\n")
            accepted = told is None or told.startswith("accepted")
            worked = answer(edition, headers, steps) if accepted else told
            assert told in (None, worked), (told, worked)
            wanted.write(worked + "\n")


if __name__ == "__main__":
    main()
