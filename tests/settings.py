"""tests/settings.py SEED COUNT SERVE..: the settings store of the archive against lists of versions, a list a department, written from document 02 alone.

SERVE.. starts tests/settings.c: it reads calls as words on standard input and writes what each answered, and all words, as it goes."""
import random, struct, subprocess, sys

WORDS, MARK, LAST = 544, 0x5A5A5A5A5A5A5A5A, 2 ** 32 - 1
ONE, MINUS_ZERO = 0x3FF0000000000000, 0x8000000000000000


class Program:
    def __init__(self, command):
        self.run = subprocess.Popen(command, stdin=subprocess.PIPE, stdout=subprocess.PIPE)

    def call(self, words, name, *arguments):
        """The answer, the four numbers behind the pointers, and the words after it."""
        numbers = [name, len(words)] + list(arguments) + [0] * (5 - len(arguments))
        self.run.stdin.write(struct.pack("<%dQ" % (len(numbers) + len(words)), *numbers, *words))
        self.run.stdin.flush()
        told = struct.unpack("<%dQ" % (5 + len(words)), self.run.stdout.read(8 * (5 + len(words))))
        return told[0], list(told[1:5]), list(told[5:])


FRESH, READ, READ_VERSION, SAVE, BRING = range(5)
UNTOUCHED = 77


def good(content):
    chance, horizon, recipe = content
    return (chance <= ONE or chance == MINUS_ZERO) and 1 <= horizon <= 255 and recipe <= 65535


class Lists:
    def __init__(self):
        self.all = [[(0, 1, 0)] for _ in range(32)]

    def call(self, name, *a):
        """The refusal's number, and what is told: version, content."""
        if name == FRESH:
            self.__init__()
            return 0, None, None
        if a[0] > 31:
            return 3, None, None
        kept, now = self.all[a[0]], len(self.all[a[0]]) - 1
        if name == READ:
            return 0, now, kept[now]
        if name == READ_VERSION:
            return (0, None, kept[a[1]]) if now - 8 < a[1] <= now else (14, None, None)
        if name == SAVE:
            if not good(a[2:5]):
                return 4, None, None
            if a[1] != now:
                return 13, None, None
            kept.append(tuple(a[2:5]))
            return 0, now + 1, None
        if a[1] != now:
            return 13, None, None
        if not now - 8 < a[2] <= now:
            return 14, None, None
        kept.append(kept[a[2]])
        return 0, now + 1, None

    def words(self):
        out = []
        for kept in self.all:
            now = len(kept) - 1
            slots = [(0, 0)] * 8
            for u in range(max(0, now - 7), now + 1):
                chance, horizon, recipe = kept[u]
                slots[u % 8] = (chance, horizon + 256 * recipe)
            out += [now] + [w for slot in slots for w in slot]
        return out


def chosen(pick, store):
    d = pick.choice([pick.randrange(3)] * 8 + [pick.randrange(32), 32, 2 ** 32 + 1])
    now = len(store.all[d]) - 1 if d < 32 else 0
    version = pick.choice([now] * 6 + [max(0, now - pick.randrange(10)), now + 1, now + 2 ** 32])
    kept = pick.choice([max(0, now - pick.randrange(10)), now, now + 1, 2 ** 32 + now])
    chance = pick.choice([0, MINUS_ZERO, ONE, 1, struct.unpack("<Q", struct.pack("<d", pick.random()))[0]] * 4
                         + [ONE + 1, MINUS_ZERO + 1, 0x7FF8000000000000, 0x7FF0000000000000, 0xFFF0000000000000, 0xBFE0000000000000])
    horizon = pick.choice([1, 255, pick.randrange(1, 256)] * 4 + [0, 256, 257])
    recipe = pick.choice([0, 65535, pick.randrange(65536)] * 4 + [65536, 2 ** 63])
    name = pick.choice([FRESH] + [READ] * 10 + [READ_VERSION] * 20 + [SAVE] * 50 + [BRING] * 20)
    return (name,) + {FRESH: (), READ: (d,), READ_VERSION: (d, kept), SAVE: (d, version, chance, horizon, recipe), BRING: (d, version, kept)}[name]


def expected(told, name, wanted):
    number, version, content = wanted
    if told[0] != (number + 64 * 256 if number else 0):
        return False
    out = [UNTOUCHED] * 4
    if not number:
        if version is not None:
            out[0] = version
        if content is not None:
            out[1:4] = content
    return told[1] == out


def main():
    seed, count = int(sys.argv[1]), int(sys.argv[2])
    pick, program, calls = random.Random(seed), Program(sys.argv[3:]), 0

    def check(store, words, call):
        nonlocal calls
        calls += 1
        before = words[WORDS:]
        told = program.call(words, *call)
        wanted = store.call(*call)
        if not expected(told, call[0], wanted) or told[2][:WORDS] != store.words() or told[2][WORDS:] != before:
            sys.exit("seed %d: call %s told %s, wanted %s" % (seed, call, told[:2], wanted))
        return told[2]

    for _ in range(count):
        store = Lists()
        words = [pick.randrange(2 ** 64) for _ in range(WORDS)] + [MARK, MARK]
        words = check(store, words, (FRESH,))
        for _ in range(60):
            words = check(store, words, chosen(pick, store))

    # Fewer words than a store: 18, and nothing changes.
    short = [pick.randrange(2 ** 64) for _ in range(WORDS - 1)]
    for call in ((FRESH,), (READ, 0), (READ_VERSION, 0, 0), (SAVE, 0, 0, 0, 1, 0), (BRING, 0, 0, 0)):
        told = program.call(short, *call)
        if told[0] != 18 + 64 * 256 or told[1] != [UNTOUCHED] * 4 or told[2] != short:
            sys.exit("a short buffer: %s told %s" % (call, told[:2]))

    # Every bit of a store turned, one at a time: 18 exactly where no lists have these words.
    store, words = Lists(), Lists().words()
    for k in range(10):
        words = check(store, words, (SAVE, 1, k, ONE - k, 1 + k, 1000 * k))
    for k in range(3):
        words = check(store, words, (SAVE, 2, k, MINUS_ZERO, 255 - k, 65535 - k))
    turned = refused = 0
    for place in range(17 * 4):
        for bit in range(64):
            damaged = list(words)
            damaged[place] ^= 1 << bit
            told = program.call(damaged, READ, 31)
            wanted = 0 if left(damaged[place // 17 * 17:place // 17 * 17 + 17]) else 18 + 64 * 256
            turned, refused = turned + 1, refused + (wanted != 0)
            if told[0] != wanted or told[2] != damaged:
                sys.exit("bit %d of word %d: told %s, wanted %s" % (bit, place, told[0], wanted))

    # The end of the numbers: 2^32 - 2 to 2^32 - 1 is accepted, then 15.
    for now in (LAST - 1, LAST):
        words = Lists().words()
        words[0] = now
        for slot in range(8):
            words[1 + 2 * slot:3 + 2 * slot] = [ONE, 7]
        told = program.call(words, READ, 0)
        if told[0] != 0 or told[1] != [now, ONE, 7, 0]:
            sys.exit("version %d: told %s" % (now, told[:2]))
        for call in ((SAVE, 0, now, 0, 1, 0), (BRING, 0, now, now - 7)):
            told = program.call(words, *call)
            if now == LAST and (told[0] != 15 + 64 * 256 or told[2] != words):
                sys.exit("version %d: %s told %s" % (now, call, told[:2]))
            if now < LAST and (told[0] != 0 or told[1][0] != LAST or told[2][0] != LAST):
                sys.exit("version %d: %s told %s" % (now, call, told[:2]))
    print("settings: %d calls as the lists; %d bits turned, %d of them refused by 18; the last version" % (calls, turned, refused))


def left(department):
    """Whether some calls leave these 17 words: from document 02, and not from the library's test."""
    now = department[0]
    if now > LAST:
        return False
    for slot in range(8):
        chance, packed = department[1 + 2 * slot], department[2 + 2 * slot]
        content = (chance, packed % 256, packed // 256)
        if slot > now:
            if (chance, packed) != (0, 0):
                return False
        elif now < 8 and slot == 0:
            if content != (0, 1, 0):
                return False
        elif not good(content):
            return False
    return True


main()
