"""What `limits` has to say of a refused sheet (docs/REFERENCE.md, 9.11), worked out from the bytes of the sheet and the line
that `recipe` prints for it; and sheets that are damaged in every way that it tells. tests/limits.py uses both."""
import re

USED = ["n", "a", "ab", "ab", "ab", "ab", "an", "avn", "avn", "avn", "abv", "a"]
HEADER = {
    1: "its number of variables is above 4;\nwrite the word anew.",
    2: "the length of variable %d is above its limit;\nlower the length or raise the limit.",
    3: "variable %d is missing, but its fields are not zero;\nclear them, or count it among the variables.",
    4: "its last 13 bits are not zero;\nclear them.",
    5: "its lengths multiply to more than 4,096;\nlower them.",
}


def shown(b):
    return "'%c'" % b if 33 <= b <= 126 else "an unreadable byte"


def wrong_byte(line):
    """How a line is wrong that is not 16 digits; it is given with its newline, where it has one. None where the text ends
    and no byte of it is wrong."""
    right = len(re.match(rb"[0-9a-f]{0,16}", line).group())
    if right == len(line):
        return None
    b, column = line[right], right + 1
    if b == 10:
        return "too short, only %d of 16 digits; write all." % right if right else "an empty line; each line has 16 digits."
    if b == 13:
        return "a carriage return in column %d; end lines with a newline alone." % column
    if b in (32, 9):
        return "a blank in column %d; write no spaces and no tabs." % column
    if column == 17:
        if chr(b) in "0123456789abcdefABCDEF":
            return "too long, more than 16 digits; write 16 and a newline."
        return shown(b) + " in column 17; write 16 digits and a newline."
    if chr(b) in "ABCDEF":
        return "a capital letter in column %d; write a to f." % column
    return "%s in column %d is no digit; write 0 to 9, a to f." % (shown(b), column)


def lengths_of(word):
    """The stored lengths of a header word."""
    return [(word >> (49 - 12 * k) & 63) + 1 for k in range(word >> 61)]


def product(ns):
    out = 1
    for n in ns:
        out *= n
    return out


def broken(data):
    """The first line that is wrong, and how: the lines are taken one after the other, each to its newline."""
    lines = re.findall(rb"[^\n]*\n|[^\n]+\Z", data)
    asked, exact, words = "", None, []
    for number in range(1, len(lines) + 2):
        if exact is not None and number == exact + 1:
            return "line %d: the sheet goes on; %d lines are needed." % (number, exact)
        line = lines[number - 1] if number <= len(lines) else b""
        if not re.fullmatch(rb"[0-9a-f]{16}\n", line):
            how = wrong_byte(line)
            if how is None:
                how = "the sheet is empty" if number == 1 else "the sheet ends before it"
                if len(line) == 16:
                    how = "the sheet ends without its newline"
                elif line:
                    how = "the sheet ends after %d of 16 digits" % len(line)
                how += asked + "."
            return "line %d: %s" % (number, how)
        words.append(int(line, 16))
        inputs, steps = words[0] >> 56, words[0] >> 48 & 255
        if number < 1 + inputs:
            asked = "; %d lines or more are needed" % (1 + inputs + inputs + steps)
        elif exact is None:
            exact = 1 + inputs + sum(product(lengths_of(w)) for w in words[1:]) + steps
            asked = "; %d lines are needed" % exact
    raise AssertionError("nothing is wrong")


def word_one(word):
    inputs, steps, edition = word >> 56, word >> 48 & 255, word >> 44 & 15
    if edition > 1:
        return "word one has edition %d; write 0 or 1." % edition
    if inputs > 16:
        return "word one has %d inputs; 16 are the most." % inputs
    if steps == 0:
        return "word one has no step; write 1 or more."
    if inputs + steps > 64:
        return "word one has %d inputs and %d steps; 64 together are the most." % (inputs, steps)
    assert word & 0xFFFFFFFFFFF
    return "word one's last 11 digits are not all zero; write zeros."


def step_word(word, p):
    """Refusal 7 at a step: the first field that is wrong, from the left of the word."""
    kind, rest = word >> 60, word & 16383
    if kind > 11:
        return "there is no kind %d; take 0 to 11." % kind
    used = USED[kind]
    for field, at, bits, name in (("a", 54, 6, "operand a"), ("b", 48, 6, "operand b"), ("v", 46, 2, "the variable"), ("n", 14, 32, "n")):
        x = word >> at & 2**bits - 1
        if field not in used:
            if x:
                return "%s is %d; kind %d uses none: write 0." % (name, x, kind)
        elif field in "ab" and x >= p:
            if p == 0:
                return "%s is place %d; there is no earlier place." % (name, x)
            return "%s is place %d%s; name an earlier one." % (name, x, " itself" if x == p else "")
    assert rest
    return "its last 14 bits are %d; write zeros." % rest


def sentence(data, number, place, variable, cause, announce):
    """The sentence; `announce` gives the limits and lengths of a step from its word and those of the places before it."""
    if number == 8:
        return broken(data) + "\n"
    words = [int(l, 16) for l in data[: len(data) // 17 * 17].split() if re.fullmatch(rb"[0-9a-f]{16}", l)]
    inputs, count = words[0] >> 56, words[0] >> 48 & 255
    if number == 7 and place == 64:
        return "line 1: %s\n" % word_one(words[0])
    if number == 1:
        return "line %d (input %d): %s\n" % (place + 2, place, HEADER[cause].replace("%d", str(variable)))
    heads = words[1 : 1 + inputs]
    known = [([(w >> (55 - 12 * k) & 63) + 1 for k in range(w >> 61)], lengths_of(w)) for w in heads]
    given = sum(product(n) for _, n in known)
    steps = words[1 + inputs + given :]
    assert len(steps) == count
    for w in steps[: place - inputs if place < 64 else count]:
        known.append(announce(w, known, words[0] >> 44 & 15))
    line = lambda p: "line %d (%s %d): " % ((p + 2, "input", p) if p < inputs else (given + p + 2, "place", p))
    if place == 64:
        counts = [product(n) for _, n in known]
        for p, n in enumerate(counts):
            if n > 256:
                return line(p) + "it takes %d coefficients; 256 are the most here.\n" % n
        which, n = ("inputs", given) if given > 2048 else ("steps", sum(counts[inputs:]))
        assert n > 2048
        return "The %s take %d coefficients together; 2048 are the most.\n" % (which, n)
    word = steps[place - inputs]
    a, v, n = word >> 54 & 63, word >> 46 & 3, word >> 14 & 2**32 - 1
    if number == 7:
        said = step_word(word, place)
    elif number == 3:
        has = len(known[a][0])
        said = "it names variable %d; place %d has %s." % (v, a, "%d, counted from 0" % has if has else "none")
    elif number == 4:
        said = "n is %d, not below %d, the limit of variable %d." % (n, known[a][0][v], v)
    elif number == 12:
        assert word >> 60 == 11
        said = "the first coefficient of place %d is not from -8 to 8;\n" % a
        said += "where that is meant, divide that place by n, take exp, then the power n of it."
    else:
        assert number == 5
        said = "it takes %d coefficients; 4096 are the most." % product(announce(word, known, 0)[1])
    return line(place) + said + "\n"


def shape(said):
    """A sentence without its numbers, and without a byte that it shows: how many there are of these says what was tried."""
    return re.sub(r"[0-9]+", "0", re.sub("'.' in", "'x' in", said.split("\n", 1)[1]))


def damaged(rng, words, pack):
    """A sheet that is refused, or not, by one damage: its bytes. `words` is a sheet's, `pack` makes a header word."""
    inputs, count = words[0] >> 56, words[0] >> 48 & 255
    words = words[:]
    lines = lambda: ["%016x\n" % w for w in words]
    which = rng.randrange(24)
    if which < 7:  # a byte, anywhere
        text = bytearray("".join(lines()).encode())
        at = rng.randrange(len(text))
        byte = rng.choice([65, 70, 71, 103, 13, 32, 9, 10, 0, 39, 126, 127, 200, 255, 45])
        if rng.random() < 0.5:
            text[at] = byte
        else:
            text[at:at] = bytes([byte])
        return bytes(text)
    if which < 12:  # lines
        text = lines()
        at = rng.randrange(len(text))
        how = rng.randrange(8)
        if how == 0:
            del text[at]
        elif how == 1:
            text.insert(at, rng.choice(["\n", text[at], text[at].upper(), " \n"]))
        elif how == 2:
            text[at] = text[at][: rng.randrange(17)] + "\n"
        elif how == 3:
            text[at] = text[at][:16] + rng.choice(["0", "F", "x", " ", "\t", "\r"]) + "\n"
        elif how == 4:
            text = [l[:16] + "\r\n" for l in text]
        elif how == 5:
            text.append(rng.choice(["\n", "0", "\r\n", "0000000000000000\n", " "]))
        elif how == 6:
            text[at] = text[at].upper()
        else:
            return "".join(text).encode()[: rng.randrange(17 * len(text) + 1)]
        return "".join(text).encode()
    if which < 14:  # word one
        sizes = [17 << 56, 255 << 56 | 255 << 48, inputs << 56, inputs << 56 | 64 << 48 | 1, 16 << 56 | 49 << 48]
        words[0] = rng.choice(sizes + [words[0] | 1 << rng.randrange(48)])
    elif which < 20:  # a field of a step
        at = len(words) - count + rng.randrange(count)
        p = at - (len(words) - count) + inputs
        how = rng.randrange(7)
        if how == 0:
            words[at] = words[at] & ~(63 << 54) | rng.choice([p, p + 1, 63]) % 64 << 54
        elif how == 1:
            words[at] = words[at] & ~(63 << 48) | rng.choice([p, p + 1, 63]) % 64 << 48
        elif how == 2:
            words[at] = words[at] & (2**60 - 1) | rng.randrange(16) << 60
        elif how == 3:
            words[at] |= 3 << 46
        elif how == 4:
            words[at] |= 1 << rng.randrange(14, 46)
        elif how == 5:
            words[at] |= 1 << rng.randrange(14)
        else:
            n = rng.choice([0, 1, 9, 64, 2**32 - 1])
            words[at] = rng.choice([7, 8, 9]) << 60 | rng.randrange(max(p, 1)) << 54 | rng.randrange(4) << 46 | n << 14
    else:  # too large
        one, zero = 0x3FF0000000000000, 0
        long = lambda n, v: pack([64] * (v + 1), [n if k == v else 1 for k in range(v + 1)])
        how = rng.randrange(4)
        if how == 0:  # a product of more than 4,096
            words = [3 << 56 | 2 << 48] + [long(64, v) for v in range(3)] + [one] * 192
            words += [4 << 60 | 1 << 48, 4 << 60 | 3 << 54 | 2 << 48]
        elif how == 1:  # an input or a step of more than 256
            n = rng.randint(2, 64)
            words = [2 << 56 | 1 << 48, long(64, 0), pack([64, 64], [n, 8])] + [one] * (64 + 8 * n) + [4 << 60 | 1 << 48]
        elif how == 2:  # all inputs
            n = rng.randint(7, 16)
            words = [n << 56 | 1 << 48] + [pack([64, 64], [32, 8])] * n + [one] * (256 * n) + [1 << 60]
        else:  # all steps
            n = rng.randint(7, 30)
            words = [1 << 56 | n << 48, pack([64, 64], [32, 8])] + [zero] * 256 + [1 << 60] * n
    return "".join(lines()).encode()
