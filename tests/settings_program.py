"""tests/settings_program.py SEED PROGRAM..: the program `settings` over files: what it prints against Python's own
decimals and a list of versions; damaged files; stopped at every system call; no room, no right to write, links;
planners at once. It fails at the first thing that should not be.

PROGRAM.. are the words that start it. Linux; nothing but Python."""
import ctypes, fractions, os, random, re, resource, shutil, signal, stat, struct, subprocess, sys, tempfile, threading

seed, program = int(sys.argv[1]), sys.argv[2:]
libc = ctypes.CDLL(None, use_errno=True)
libc.ptrace.restype = ctypes.c_long
libc.ptrace.argtypes = [ctypes.c_long, ctypes.c_long, ctypes.c_void_p, ctypes.c_void_p]
room = tempfile.mkdtemp()
os.chmod(room, 0o755)
folder = os.path.join(room, "store's folder")
file = os.path.join(folder, "store")
new = file + ".new"


def fail(sentence):
    raise SystemExit("tests/settings_program.py: " + sentence)


def ask(*arguments, **more):
    return subprocess.run(program + [file] + [str(a) for a in arguments], stdout=subprocess.PIPE, text=True, **more).stdout


def expect(text, *arguments):
    said = ask(*arguments)
    if text not in said:
        fail("%s: said %r, and not %r" % (arguments, said, text))


def read():
    with open(file, "rb") as f:
        return f.read()


def anew():
    """An empty folder."""
    shutil.rmtree(folder, ignore_errors=True)
    os.mkdir(folder)


# ---- what is printed, worked out apart
def word(x):
    return struct.unpack("<Q", struct.pack("<d", x))[0]


def shown(bits):
    """A chance from 0 to 1: nine decimals at most, to the nearest, ties to even; ~ where that is not it."""
    value = fractions.Fraction(struct.unpack("<d", struct.pack("<Q", bits))[0])
    m = round(value * 10 ** 9)
    exact = fractions.Fraction(m, 10 ** 9) == value
    if m == 0 and not exact:
        text = "<0.000000001"
    else:
        whole, part = divmod(m, 10 ** 9)
        text = ("" if exact else "~") + ("-" if bits >> 63 else "") + str(whole) + (".%09d" % part).rstrip("0").rstrip(".")
    return "%s (0x%016x)" % (text, bits)


def line(version, content):
    return "version %d, chance %s, horizon %d, recipe %d\n" % (version, shown(content[0]), content[1], content[2])


def chances(random):
    """A text and the bits that it says."""
    kind = random.randrange(4)
    if kind == 0:
        bits = random.choice([0, 1, 1 << 63, word(1.0), word(1 / 3), random.randrange(word(1.0))])
        return "0x%016x" % bits, bits
    if kind == 1:
        text = random.choice(["0", "1", "0.5", "0.95", "1.0", "00.250", "0.0000000000000000000001", "0.999999999999999"])
        return text, word(float(text))
    text = "0." + "".join(random.choice("0123456789") for _ in range(random.randrange(1, 15)))
    return text, word(float(text))


def talk(random, count):
    """Saves and bringings back, against a list of versions."""
    anew()
    expect("FILE cannot be opened", "list")
    expect("a fresh store: every department at version 0, chance 0, horizon 1, recipe 0.\n", "fresh")
    expect("FILE is there already", "fresh")
    kept = [[(0, 1, 0)] for _ in range(32)]
    for _ in range(count):
        d = random.choice([0, 31, 7])
        v = len(kept[d]) - 1
        stale = random.randrange(4) == 0 and v > 0
        if random.randrange(3):
            text, bits = chances(random)
            content = (bits, random.randrange(1, 256), random.randrange(65536))
            said = ask("save", d, v - stale, text, content[1], content[2])
        else:
            u = random.randrange(max(0, v - 7), v + 1)
            content = kept[d][u]
            said = ask("back", d, v - stale, u)
        if stale:
            wanted = "refused 13 64: FROM is not the current version: somebody saved since it was read, or the number is wrong. Nothing was changed.\n"
            wanted += "department %d: %s" % (d, line(v, kept[d][v]))
        else:
            kept[d].append(content)
            wanted = "department %d: %s" % (d, line(v + 1, content))
        if said != wanted:
            fail("said %r, and not %r" % (said, wanted))
    for d in range(32):
        if d in (0, 31, 7, 9):
            last = list(enumerate(kept[d]))[-8:]
            if ask("versions", d) != "".join(line(u, c) for u, c in last):
                fail("versions %d: said %r" % (d, ask("versions", d)))
    if ask("list") != "".join("department %d: %s" % (d, line(len(k) - 1, k[-1])) for d, k in enumerate(kept)):
        fail("list: said %r" % ask("list"))
    print("%d saves and bringings back, printed as a list of versions says" % count)


def refusals():
    """Every other answer, and that it changes nothing."""
    anew()
    ask("fresh")
    ask("save", 3, 0, "0.95", 4, 7)
    before = read()
    for text, arguments in [
        ("refused 3 64: there is no such department; they are 0 to 31. Nothing was changed.\n", ("save", 32, 1, "0.5", 5, 8)),
        ("refused 3 64", ("versions", 32)),
        ("refused 4 64: the chance is not from 0 to 1", ("save", 3, 1, "1.5", 5, 8)),
        ("refused 4 64", ("save", 3, 1, "1.00000000000001", 5, 8)),
        ("refused 4 64", ("save", 3, 1, "0x3ff0000000000001", 5, 8)),
        ("refused 4 64", ("save", 3, 1, "0x7ff8000000000000", 5, 8)),
        ("refused 4 64", ("save", 3, 1, "0x8000000000000001", 5, 8)),
        ("refused 4 64", ("save", 3, 1, "0.5", 0, 8)),
        ("refused 4 64", ("save", 3, 1, "0.5", 256, 8)),
        ("refused 4 64", ("save", 3, 1, "0.5", 5, 65536)),
        ("refused 4 64", ("save", 3, 0, "0.5", 0, 8)),
        ("refused 13 64", ("save", 3, 0, "0.5", 5, 8)),
        ("refused 13 64", ("save", 3, 4294967297, "0.5", 5, 8)),
        ("refused 14 64: that version is not kept", ("back", 3, 1, 9)),
        ("an argument says no number", ("save", 3, 1, "95%", 5, 8)),
        ("an argument says no number", ("save", 3, 1, ".5", 5, 8)),
        ("an argument says no number", ("save", 3, 1, "-0", 5, 8)),
        ("an argument says no number", ("save", 3, 1, "1e-3", 5, 8)),
        ("an argument says no number", ("save", 3, 1, "0,5", 5, 8)),
        ("an argument says no number", ("save", 3, 1, "~0.95", 5, 8)),
        ("an argument says no number", ("save", 3, 1, "3fee666666666666", 5, 8)),
        ("an argument says no number", ("save", 3, 1, "0x3FEE666666666666", 5, 8)),
        ("an argument says no number", ("save", 3, 1, "0.1234567890123456", 5, 8)),
        ("an argument says no number", ("save", 3, 1, "0." + "0" * 63, 5, 8)),
        ("an argument says no number", ("save", 3, -1, "0.5", 5, 8)),
        ("an argument says no number", ("save", 3, 10 ** 18, "0.5", 5, 8)),
        ("an argument says no number", ("save", "", 1, "0.5", 5, 8)),
        ("an argument says no number", ("versions", "three")),
        ("settings FILE fresh", ("list", 3)),
        ("settings FILE fresh", ("saved", 3, 1, "0.5", 5, 8)),
        ("Nothing was read or changed", ()),
    ]:
        expect(text, *arguments)
        if read() != before or os.path.exists(new):
            fail("%s changed something" % (arguments,))
    for edit in ["^3fee7ff8", "", "+", "G", "1"]:
        damaged = {
            "^3fee7ff8": before.replace(b"3fee6", b"7ff86"),
            "": before[17:],
            "+": before + b"0000000000000000\n",
            "G": b"G" + before[1:],
            "1": before[:15] + b"1" + before[16:],
        }[edit]
        with open(file, "wb") as f:
            f.write(damaged)
        for call in [("list",), ("save", 3, 1, "0.5", 5, 8)]:
            expect("refused 18 64: these are not a store's words: the file was damaged, or is something else. Nothing was changed.\n", *call)
        if read() != damaged or os.path.exists(new):
            fail("a damaged file was changed")
    print("refusals, texts that are no numbers, damaged files: each told, and nothing changed")


# ---- stopped at every system call
def run_to(arguments, stop, output):
    """Runs the program by system calls and kills it where `stop` says so: a function of how many stops there were since FILE.new was first seen, 0
    before. Answers how many there were, or None where it was killed."""
    pid = os.fork()
    if pid == 0:
        out = os.open(output, os.O_WRONLY | os.O_CREAT | os.O_TRUNC)
        os.dup2(out, 1)
        libc.ptrace(0, 0, None, None)
        os.execvp(program[0], program + [file] + [str(a) for a in arguments])
    seen = 0
    _, status = os.waitpid(pid, 0)
    while True:
        if not os.WIFSTOPPED(status):
            return seen
        if seen or os.path.exists(new):
            seen += 1
        if stop(seen):
            os.kill(pid, signal.SIGKILL)
            os.waitpid(pid, 0)
            return None
        if libc.ptrace(24, pid, None, None) < 0:
            fail("a program cannot be followed here: error %d" % ctypes.get_errno())
        _, status = os.waitpid(pid, 0)


def stopped(name, begin, arguments, told):
    """Kills a change between any two of its system calls: the old store or the new one is whole, what was told is there, and what is left is told."""
    output = os.path.join(room, "said")
    begin()
    old = read() if os.path.exists(file) else None
    begin()
    stops = run_to(arguments, lambda seen: False, output)
    after = read() if os.path.exists(file) else None
    counts = {"old": 0, "new": 0, "left": 0}
    for k in range(1, stops + 1):
        begin()
        run_to(arguments, lambda seen: seen == k, output)
        now = read() if os.path.exists(file) else None
        with open(output) as f:
            said = f.read()
        if now not in (old, after):
            fail("%s, killed at stop %d: neither the old store nor the new one" % (name, k))
        if said.startswith(told) and now != after:
            fail("%s, killed at stop %d: told and not there" % (name, k))
        if os.path.exists(new):
            counts["left"] += 1
            if after != old and now != old:
                fail("%s, killed at stop %d: FILE.new left, and the change is made" % (name, k))
            expect("turned away: FILE.new is there", "save", 5, 0, "0.5", 2, 2)
            if (read() if os.path.exists(file) else None) != old:
                fail("turned away, and the store changed")
            os.remove(new)
        counts["new" if now == after and after != old else "old"] += 1
        if now is not None:
            expect("department 5: version 1", "save", 5, 0, "0.5", 2, 2)
    print("%s, killed at %d places: %d times the old store, %d times the new one, FILE.new left %d times" % (
        name, stops, counts["old"], counts["new"], counts["left"]))


def begin_store():
    anew()
    ask("fresh")
    ask("save", 3, 0, "0.95", 4, 7)


def stops():
    stopped("a save", begin_store, ("save", 3, 1, "0.5", 2, 9), "department")
    stopped("a bringing back", begin_store, ("back", 3, 1, 0), "department")
    stopped("a stale save", begin_store, ("save", 3, 0, "0.5", 2, 9), "department")
    stopped("a fresh store", anew, ("fresh",), "a fresh store")


# ---- what the system refuses
def room_for(size):
    """A process that may write no file longer than that; the write fails."""
    def limit():
        signal.signal(signal.SIGXFSZ, signal.SIG_IGN)
        resource.setrlimit(resource.RLIMIT_FSIZE, (size, size))
    return limit


def nobody():
    os.setgid(65534)
    os.setuid(65534)


def system():
    begin_store()
    before = read()
    save = ("save", 3, 1, "0.5", 2, 9)
    for size in (0, 1, 4096, 9247):
        output = os.path.join(room, "said")
        said = subprocess.run(program + [file] + [str(a) for a in save], stdout=subprocess.PIPE, text=True, preexec_fn=room_for(size)).stdout
        if "FILE.new could not be written whole" not in said or read() != before or os.path.exists(new):
            fail("room for %d bytes: said %r" % (size, said))
    as_whom = nobody if os.getuid() == 0 else None
    if as_whom and subprocess.run(program, stdout=subprocess.PIPE, preexec_fn=as_whom).returncode != 0:
        print("a folder that may not be written: not tried, for nobody cannot run the program here")
    else:
        os.chmod(folder, 0o555)
        said = ask(*save, preexec_fn=as_whom)
        if "FILE.new cannot be made" not in said or read() != before:
            fail("a folder that may not be written: said %r" % said)
        if "department 3: version 1, chance ~0.95" not in ask("list", preexec_fn=as_whom):
            fail("a folder that may not be written: not read")
        os.chmod(folder, 0o777)
        os.chmod(file, 0o600 if as_whom else 0)
        said = ask("list", preexec_fn=as_whom) + ask("fresh", preexec_fn=as_whom)
        os.chmod(file, 0o644)
        if "FILE cannot be opened" not in said or "FILE is there already, or its place cannot be looked at" not in said or read() != before:
            fail("a file that may not be read: said %r" % said)
        os.chmod(folder, 0o755)
        print("no room, a folder that may not be written, a file that may not be read: told, and the store is as it was")
    link = file + "-link"
    os.symlink(file, link)
    said = subprocess.run(program + [link] + [str(a) for a in save], stdout=subprocess.PIPE, text=True).stdout
    if "FILE is a link" not in said or read() != before or not os.path.islink(link):
        fail("a link: said %r" % said)
    os.symlink(file + "-nowhere", link + "2")
    said = subprocess.run(program + [link + "2", "fresh"], stdout=subprocess.PIPE, text=True).stdout
    if "FILE is a link" not in said or not os.path.islink(link + "2"):
        fail("a link to nowhere: said %r" % said)
    own = b"a file of somebody's own\n"
    with open(new, "wb") as f:
        f.write(own)
    expect("turned away", *save)
    with open(new, "rb") as f:
        if f.read() != own or read() != before:
            fail("FILE.new of somebody's own was changed")
    os.remove(new)
    said = subprocess.run(program + ["store"] + [str(a) for a in save], stdout=subprocess.PIPE, text=True, cwd=folder).stdout
    if said != "department 3: " + line(2, (word(0.5), 2, 9)):
        fail("a name without a folder: said %r" % said)
    said = subprocess.run(program + [folder, "list"], stdout=subprocess.PIPE, text=True).stdout
    if "FILE cannot be read to its end" not in said:
        fail("a folder for a file: said %r" % said)
    print("links, a file of somebody's own, a name without a folder, a folder for a file: as they should be")


# ---- planners at once
def planners(count):
    """Each saves until it is accepted; every save is there in the end, in some order."""
    begin_store()
    lost = []

    def planner(me):
        for _ in range(2000):
            current = int(re.match(r"(?s).*version (\d+),", ask("versions", 9)).group(1))
            said = ask("save", 9, current, "0.5", me, current)
            if said.startswith("department 9: version %d," % (current + 1)):
                return
            if not said.startswith(("refused 13", "turned away")):
                lost.append(said)
                return
        lost.append("not accepted")

    threads = [threading.Thread(target=planner, args=(k,)) for k in range(1, count + 1)]
    for t in threads:
        t.start()
    for t in threads:
        t.join()
    there = sorted(int(h) for h in re.findall(r"horizon (\d+)", ask("versions", 9)))
    if lost or there != [1] + list(range(1, count + 1)):
        fail("planners at once: %s, %s" % (lost, there))
    print("%d planners at once: every save is there, or was turned away" % count)


try:
    talk(random.Random(seed), 40)
    refusals()
    stops()
    system()
    planners(5)
finally:
    shutil.rmtree(room, ignore_errors=True)
print("the program settings: as it should be")
