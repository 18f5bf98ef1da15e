#!/usr/bin/env python3
"""Compares the programs `from_npy` and `to_npy` with NumPy (1.24 or newer) and with the grammar of document 02's W2 and W12 written as a regular expression.

    tests/npy.py FROM TO SEED COUNT

FROM and TO are the built programs (and, where they need one, an emulator before each, in one word with spaces). Two good files are first damaged at every
place: each byte changed, cut and doubled. Then COUNT random files follow, of either version, f8 or f4, rows or columns, some of them damaged. What is read has
to be what NumPy reads; a file that is refused by 10 has to be outside the grammar. What is read then goes back through TO as an answer of `recipe`, and the
bytes have to be those that NumPy writes, of version 1.0 and, asked for, of 2.0. Needs NumPy; the gate does not run it."""
import io, random, re, struct, subprocess, sys
import numpy as np

np.seterr(all="ignore")

B = rb"[ \t\n\f\r]*"
NUMBER = rb"(?:0|[1-9][0-9]*)"
TUPLE = rb"\(" + B + rb"(?:" + NUMBER + B + rb"," + B + rb"|" + NUMBER + rb"(?:" + B + rb"," + B + NUMBER + rb")+(?:" + B + rb",)?" + B + rb")?\)"
def item(key, value): return rb"(?:'" + key + rb"'|\"" + key + rb"\")" + B + rb":" + B + value
ITEM = rb"(?:" + item(b"descr", rb"(?:'<f[48]'|\"<f[48]\")") + rb"|" + item(b"fortran_order", b"(?:True|False)") + rb"|" + item(b"shape", TUPLE) + rb")"
HEADER = re.compile(rb"[ \t]*\{" + B + ITEM + B + rb"," + B + ITEM + B + rb"," + B + ITEM + B + rb"(?:," + B + rb")?\} *\n", re.S)

def by_rules(f):
    """refusal number, or the shape"""
    start = {b"\x93NUMPY\x01\x00": 10, b"\x93NUMPY\x02\x00": 12}.get(f[:8], 0)
    if start == 0 or len(f) < start: return 10
    n = int.from_bytes(f[8:start], "little")
    if len(f) >= 98316 and n > 65535: return 5  # the program's own limit
    text, data = f[start:start + n], f[start + n:]
    if len(text) < n or not HEADER.fullmatch(text): return 10
    for key in (b"descr", b"fortran_order", b"shape"):
        if len(re.findall(rb"['\"]" + key + rb"['\"]", text)) != 1: return 10
    shape = tuple(int(x) for x in re.findall(rb"[0-9]+", re.search(TUPLE, text).group()))
    count = 1
    for x in shape: count *= x
    if len(shape) > 4 or any(not 1 <= x <= 64 for x in shape) or count > 4096: return 5
    return shape if len(data) == (8 if b"<f8" in text else 4) * count else 10

def refused(number): return "refused %d 64 0 0\n" % number

def expected(f):
    r = by_rules(f)
    if isinstance(r, int): return refused(r)
    table = loaded(f)
    assert table.shape == r and table.dtype in (np.dtype("<f8"), np.dtype("<f4")), (table.shape, r)
    return lines(table)

def loaded(f): return np.load(io.BytesIO(f), allow_pickle=False, max_header_size=1 << 33)

def lines(table):
    """header word, then coefficients"""
    r = table.shape; w = len(r)
    for k in range(4):
        n = r[k] if k < len(r) else 1
        w = w << 12 | (n - 1) << 6 | (n - 1)
    words = [w << 13] + [0x7ff8000000000000 if x != x else struct.unpack("<Q", struct.pack("<d", x))[0] for x in table.astype("<f8").ravel()]
    return "".join("%016x\n" % x for x in words)

def saved(table):
    """what np.save writes, NaN as the one that is written here"""
    b = io.BytesIO(); np.save(b, np.where(np.isnan(table), np.nan, table) if table.dtype == np.dtype("<f8") else table); return b.getvalue()

def versioned(table, version):
    """what NumPy writes in a version of the format"""
    b = io.BytesIO(); np.lib.format.write_array(b, np.where(np.isnan(table), np.nan, table) if table.dtype == np.dtype("<f8") else table, version=version)
    return b.getvalue()

def ordered(table): return np.asfortranarray(table) if table.ndim > 1 else table

def damaged(r, f):
    p = r.randrange(len(f)); k = r.randrange(3)
    return [f[:p] + bytes([r.randrange(256)]) + f[p + 1:], f[:p] + f[p + 1:], f[:p] + f[p:p + 1] + f[p:]][k]

def files(r, count):
    table = np.array([[0.25, 0.5, 0.25], [-0.0, np.nan, 1e-310]])
    for good in (saved(table), versioned(ordered(table.astype("<f4")), (2, 0))):
        yield good
        for p in range(len(good)):
            yield good[:p] + bytes([good[p] ^ (1 + p % 255)]) + good[p + 1:]
            yield good[:p] + good[p + 1:]
            yield good[:p] + good[p:p + 1] + good[p:]
    for _ in range(count):
        shape = tuple(r.choice([1, 2, 3, 4, 7, 64, 65, 0]) for _ in range(r.randrange(6)))
        if np.prod(shape, dtype=float) > 5000: shape = shape[:1]
        table = np.frombuffer(r.randbytes(8 * int(np.prod(shape))), dtype="<f8").reshape(shape)
        if r.random() < 0.4: table = np.frombuffer(r.randbytes(4 * table.size), dtype="<f4").reshape(shape)
        if r.random() < 0.1: table = table.astype(r.choice([">f8", "<i8", ">f4"]))
        f = versioned(ordered(table) if r.random() < 0.5 else table, r.choice([(1, 0), (2, 0)]) if r.random() < 0.95 else (3, 0))
        yield damaged(r, f) if r.random() < 0.5 else f

def run(program, given): return subprocess.run(program, input=given, capture_output=True).stdout

def main():
    there, back, seed, count = sys.argv[1].split(), sys.argv[2].split(), int(sys.argv[3]), int(sys.argv[4])
    r = random.Random(seed); seen = {}; wrong = 0
    for f in files(r, count):
        want = expected(f).encode()
        got = run(there, f)
        kind = want.decode().strip() if want.startswith(b"refused") else "read"
        seen[kind] = seen.get(kind, 0) + 1
        if got != want:
            wrong += 1
            print("differs:", f[:160], "want", want[:60], "got", got[:60])
        if kind == "read":
            table = np.ascontiguousarray(loaded(f).astype("<f8")).reshape(loaded(f).shape)
            for words, version in (([], (1, 0)), (["2.0"], (2, 0))):
                if run(back + words, b"done 1\n" + want) != versioned(table, version):
                    wrong += 1
                    print("not written as NumPy writes it:", version, f[:160])
        if kind != "read" and run(back, want) != want:
            wrong += 1
            print("a refusal that does not go through:", want)
    print(sum(seen.values()), "files,", wrong, "differ;", seen)

if __name__ == "__main__": main()
