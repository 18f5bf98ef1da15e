#!/usr/bin/env python3
"""What `mend` has to print, worked out from document 02's W14 on bytes and words, and compared with what it prints.

    tests/mend.py SEED COUNT PROGRAM..

makes COUNT good sheets; each goes through as it is, then as the old exporter would have stored it (capitals, carriage
returns, junk in spare bits and unused fields, anything after the last step), then damaged; then some sheets at the
edges of the program's limits. Every tenth is fed drop by drop, through a pipe written in small pieces. What is printed
is compared byte by byte, and the mended sheet is mended once more. Prints how many texts there were and the first
difference, if any. tests/mend starts it with the built program."""
import random, re, subprocess, sys, time

LINE = re.compile(rb"[0-9a-fA-F]{16}\r?\n")
# of the step fields a, b, v (variable) and n; kinds from 12 on are refused
USES = {0: "n", 1: "a", 2: "ab", 3: "ab", 4: "ab", 5: "ab", 6: "an", 7: "avn", 8: "avn", 9: "avn", 10: "abv", 11: "a"}
FIELDS = {"a": (54, 6), "b": (48, 6), "v": (46, 2), "n": (14, 32)}
ONE_SPARE, HEADER_SPARE, STEP_SPARE = 44, 13, 14


def clear(word, bits):
    return word >> bits << bits


def count_of(word):
    """How many coefficients a mended header word announces; None where it breaks the rules."""
    variables, count = word >> 61, 1
    if variables > 4 or word % 2**HEADER_SPARE:
        return None
    for k in range(4):
        limit, length = (word >> 55 - 12 * k) & 63, (word >> 49 - 12 * k) & 63
        if length > limit or k >= variables and limit:
            return None
        count *= length + 1
    return count if count <= 4096 else None


def mended_step(word):
    if word >> 60 not in USES:
        return word
    kept = word >> 60 << 60
    for name, (at, width) in FIELDS.items():
        if name in USES[word >> 60]:
            kept |= (word >> at & 2**width - 1) << at
    return kept


class Refused(Exception):
    pass


def mend(text):
    """All that is printed for a text."""
    at, olds, news = 0, [], []

    def line():
        nonlocal at
        found = LINE.match(text, at)
        if not found:
            raise Refused(8)
        at = found.end()
        olds.append(found.group()[:16])
        return int(olds[-1], 16)

    try:
        one = line()
        inputs, steps = one >> 56, one >> 48 & 255
        if inputs > 16 or steps < 1 or inputs + steps > 64:
            raise Refused(8)
        news.append(clear(one, ONE_SPARE))
        counts = []
        for _ in range(inputs):
            news.append(clear(line(), HEADER_SPARE))
            counts.append(count_of(news[-1]))
            if counts[-1] is None:
                raise Refused(8)
        news += [line() for _ in range(sum(counts))]
        news += [mended_step(line()) for _ in range(steps)]
        if max(counts, default=0) > 256 or sum(counts) > 2048:
            raise Refused(5)
    except Refused as refusal:
        return b"refused %d 64 0 0\n" % refusal.args
    digits = [b"%016x" % word for word in news]
    changes = [b"%d %s %s\n" % (k, old, new) for k, (old, new) in enumerate(zip(olds, digits), 1) if old != new]
    return b"".join(changes) + b"".join(new + b"\n" for new in digits)


def run(program, text, drops):
    """What the program prints; with drops the text goes through the pipe in pieces."""
    if not drops:
        return subprocess.run(program, input=text, stdout=subprocess.PIPE).stdout
    with subprocess.Popen(program, stdin=subprocess.PIPE, stdout=subprocess.PIPE) as started:
        try:
            for k, at in enumerate(range(0, len(text), drops)):
                started.stdin.write(text[at : at + drops])
                started.stdin.flush()
                if k < 40:
                    time.sleep(0.0005)
            started.stdin.close()
        except BrokenPipeError:
            pass
        return started.stdout.read()


def header(rng, most):
    """A header word that announces at most so many coefficients."""
    while True:
        variables = rng.randrange(5)
        word = variables << 61
        for k in range(variables):
            limit = rng.randrange(64)
            length = rng.randrange(min(limit, rng.choice([1, 3, 63])) + 1)
            word |= limit << 55 - 12 * k | length << 49 - 12 * k
        if (count_of(word) or 4097) <= most:
            return word


def sheet(rng, most=40):
    """The words of a good sheet, as lists: word one, headers, coefficients, steps."""
    inputs = rng.randrange(5)
    steps = rng.randrange(1, 7)
    headers = [header(rng, most) for _ in range(inputs)]
    coefficients = [rng.getrandbits(64) for _ in range(sum(map(count_of, headers)))]
    words = [mended_step(rng.getrandbits(64) if rng.random() < 0.5 else rng.randrange(12) << 60 | rng.getrandbits(60)) for _ in range(steps)]
    return [inputs << 56 | steps << 48 | rng.choice([0, 1, rng.getrandbits(4)]) << 44], headers, coefficients, words


def plain(parts):
    return b"".join(b"%016x\n" % word for part in parts for word in part)


def junk(rng, word, fields):
    """The word with bits set at random in some of these fields, (at, width)."""
    for at, width in fields:
        if rng.random() < 0.6:
            word |= (rng.getrandbits(width) & rng.getrandbits(width) if rng.random() < 0.5 else rng.getrandbits(width)) << at
    return word


def old(rng, parts):
    """What the old exporter would have stored."""
    one, headers, coefficients, steps = parts
    unused = lambda word: [FIELDS[name] for name in FIELDS if name not in USES[word >> 60]] + [(0, STEP_SPARE)]
    words = [junk(rng, w, [(0, ONE_SPARE)]) for w in one] + [junk(rng, w, [(0, HEADER_SPARE)]) for w in headers] + coefficients
    words += [junk(rng, w, unused(w)) if w >> 60 in USES else w for w in steps]
    text = b""
    for word in words:
        digits = b"%016x" % word
        style = rng.randrange(3)
        digits = digits.upper() if style == 0 else bytes(rng.choice([d, ord(chr(d).upper())]) for d in digits) if style == 1 else digits
        text += digits + (b"\r\n" if rng.random() < 0.5 else b"\n")
    return text + rng.choice([b"", b"\n", b"0123456789ABCDEF\r\n" * rng.randrange(4), rng.randbytes(rng.randrange(50)), b"\r", b"x" * 2000000])


def damaged(rng, text):
    """The text with one fault or a few."""
    for _ in range(rng.choice([1, 1, 1, 3])):
        at = rng.randrange(len(text) + 1)
        how = rng.randrange(6)
        if how == 0:
            text = text[:at]
        elif how == 1:
            text = text[:at] + bytes([rng.choice(b"gG @/:`\r\n0aA\0\xff")]) + text[at + 1 :]
        elif how == 2:
            text = text[:at] + rng.choice([b"\r", b"\n", b" ", b"0", b"0x"]) + text[at:]
        elif how == 3:
            text = text[:at] + text[at + 1 :]
        elif how == 4:
            text = text.replace(b"\n", b"\r\r\n", 1)
        else:
            text = b"%02x" % rng.getrandbits(8) + text[2:]
    return text


def edges(rng):
    """Texts at the edges of the limits, and of the memory of the program."""
    full = 4 << 61 | 7 << 55 | 7 << 49 | 7 << 43 | 7 << 37 | 7 << 31 | 7 << 25 | 7 << 19 | 7 << 13
    inputs_of = lambda word, n, steps: plain([[n << 56 | steps << 48], [word] * n, [rng.getrandbits(64) for _ in range(n * count_of(word))], [0] * steps])
    word_256 = 2 << 61 | 15 << 55 | 15 << 49 | 15 << 43 | 15 << 37
    word_64 = 1 << 61 | 63 << 55 | 63 << 49
    capitals = lambda text: text.replace(b"\n", b"\r\n").upper()
    yield b""
    yield b"\n"
    yield inputs_of(word_256, 8, 56)
    yield capitals(inputs_of(word_256, 8, 56)).replace(b"0" * 16, b"F" + b"0" * 15)
    yield inputs_of(word_256, 9, 1)
    yield inputs_of(word_64, 16, 48)
    yield inputs_of(full, 1, 1)
    yield inputs_of(full, 1, 1)[:-17]
    big = capitals(inputs_of(full, 16, 48))
    yield big
    yield big + b"more"
    yield big[:-1]
    yield big[:-19] + b"\r\n"
    # the longest output: 8 inputs of 256 coefficients, 56 steps, every line changed
    words = [[8 << 56 | 56 << 48 | 0xABCDEF], [word_256 | 1] * 8, [0xA << 60 | rng.getrandbits(60) for _ in range(2048)], [0xA << 60 | 1] * 56]
    text = plain(words).upper()
    yield text.replace(b"\n", b"\r\n")
    for inputs, steps in ((16, 48), (16, 49), (17, 1), (0, 64), (0, 65), (0, 0), (1, 0), (0, 1)):
        yield plain([[inputs << 56 | steps << 48], [0] * inputs, [1] * inputs, [0] * steps])


def main():
    seed, count, program = int(sys.argv[1]), int(sys.argv[2]), sys.argv[3:]
    rng = random.Random(seed)
    texts, ends = 0, {}

    def compare(text, drops=0):
        nonlocal texts
        texts += 1
        want, said = mend(text), run(program, text, drops)
        end = want[:9] if want.startswith(b"refused") else b"mended"
        ends[end] = ends.get(end, 0) + 1
        if said != want:
            print(f"text {texts} of seed {seed} differs: {text[:400]!r}\nprinted {said[:400]!r}\nnot     {want[:400]!r}")
            sys.exit(1)
        return want

    def thrice(parts, text, drops=0):
        """An old text, and the sheet that it becomes: mended once more it is itself."""
        good = plain(parts)
        said = compare(text, drops)
        if not said.startswith(b"refused") and not said.endswith(good):
            print(f"text {texts} of seed {seed} is not mended to the sheet that it was made of: {text[:400]!r}")
            sys.exit(1)
        if not said.startswith(b"refused") and compare(good) != good:
            print(f"text {texts} of seed {seed}: a good sheet changes: {good[:400]!r}")
            sys.exit(1)

    longest = 0
    for text in edges(rng):
        longest = max(longest, len(compare(text)))
    for number in range(count):
        parts = sheet(rng, rng.choice([3, 40, 300]))
        drops = rng.choice([1, 7, 18, 1000]) if number % 10 == 0 else 0
        text = old(rng, parts)
        thrice(parts, text if not drops else text[:4000], drops)
        compare(damaged(rng, text[:100000]))
    if longest != 117221:
        print(f"the longest output had {longest} bytes and not 117,221")
        sys.exit(1)
    print(f"{texts} texts, {', '.join(f'{n} {k.decode()}' for k, n in sorted(ends.items()))}: no difference")


main()
