#!/usr/bin/env python3
"""Writes what crates/replay_npy and crates/to_npy replay, and what has to come out; needs NumPy, which the gate does not.

    tests/stored_npy.py

Array files are saved by NumPy, or spelt and damaged here; what each says is what NumPy loads where tests/npy.py's regular expression takes it, else the refusal
that document 02, W2 and W12, names. Answers of `recipe` are spelt here, and the array files of theirs are what NumPy writes in version 1.0 and 2.0. Nothing is
from the code that is tried. Stored as it is: what NumPy 1.24.2 of Debian wrote."""
import io, os, random, struct, sys
sys.dont_write_bytecode = True
import numpy as np
from npy import expected, lines, loaded, ordered, refused, saved, versioned

FILE, ANSWER, NEWER = 0, 1, 2
ODD = [0.0, -0.0, 1.0, -1.0, 0.1, 1e-310, 5e-324, 1.7976931348623157e308, np.inf, -np.inf, np.nan]

def table(shape):
    n = int(np.prod(shape, dtype=int))
    return np.array([ODD[k % len(ODD)] + (k // len(ODD)) for k in range(n)], dtype="<f8").reshape(shape)

SMALL = [0.0, -0.0, 1.0, -1.0, 0.1, 1e-40, 1.401298464324817e-45, 3.4028234663852886e38, np.inf, -np.inf, np.nan]

def narrow(shape):
    """f32s: both zeros, subnormals, the largest, infinities, a NaN"""
    n = int(np.prod(shape, dtype=int))
    return np.array([SMALL[k % len(SMALL)] + (k // len(SMALL)) for k in range(n)], dtype="<f4").reshape(shape)

def spelt(text, data):
    return b"\x93NUMPY\x01\x00" + struct.pack("<H", len(text)) + text + data

SHAPES = [(), (1,), (2,), (64,), (65,), (0,), (2, 3), (3, 2), (64, 64), (60, 64), (1, 1), (64, 1), (1, 65), (2, 3, 4), (16, 16, 16), (17, 16, 16), (2, 2, 2, 2),
          (8, 8, 8, 8), (1, 1, 1, 1), (1, 1, 1, 64), (1, 1, 1, 1, 1)]
TEXTS = [b"{'descr': '<f8', 'fortran_order': False, 'shape': (2,)}\n", b"{'descr': '<f8', 'fortran_order': False, 'shape': (2,), }\n",
         b"{'shape': (2,), 'fortran_order': False, 'descr': '<f8'}\n", b'{"descr": "<f8", "fortran_order": False, "shape": (2,)}   \n',
         b" \t{ 'descr'\t:\r'<f8'\n,\f'fortran_order' : False , 'shape' : ( 2 , ) , } \n", b"{'descr':'<f8','fortran_order':False,'shape':(2,1,)}\n",
         b"{'descr':'<f8','fortran_order':False,'shape':(2,1)}\n", b"{'descr': '<f8', 'fortran_order': False, 'shape': (2)}\n",
         b"{'descr': '<f8', 'fortran_order': False, 'shape': (2,)}", b"{'descr': '<f8', 'fortran_order': False, 'shape': (2,)}\n\n",
         b"{'descr': '<f8', 'fortran_order': False, 'shape': (2,)}\t\n", b"{'descr': '<f8', 'fortran_order': False, 'shape': (2,)}\r\n",
         b"{'descr': '<f8', 'fortran_order': False, 'shape': (2,)} # \n", b"\n{'descr': '<f8', 'fortran_order': False, 'shape': (2,)}\n",
         b"{'descr': '<f8', 'fortran_order': True, 'shape': (2,)}\n", b"{'descr': '<f8', 'fortran_order': 0, 'shape': (2,)}\n",
         b"{'descr': '=f8', 'fortran_order': False, 'shape': (2,)}\n", b"{'descr': 'f8', 'fortran_order': False, 'shape': (2,)}\n",
         b"{'descr': '<f4', 'fortran_order': False, 'shape': (4,)}\n", b"{'descr': '<f8', 'fortran_order': False, 'shape': (02,)}\n",
         b"{'descr': '<f8', 'fortran_order': False, 'shape': (+2,)}\n", b"{'descr': '<f8', 'fortran_order': False, 'shape': (2,,)}\n",
         b"{'descr': '<f8', 'fortran_order': False, 'shape': (,)}\n", b"{'descr': '<f8', 'fortran_order': False, 'shape': (0x2,)}\n",
         b"{'descr': '<f8', 'fortran_order': False, 'shape': (18446744073709551617,)}\n", b"{'descr': '<f8', 'fortran_order': False, 'shape': (65,)}\n",
         b"{'descr': '<f8', 'fortran_order': False, 'shape': (65,), 'x': 1}\n", b"{'descr': '<f8', 'fortran_order': False, 'shape': (65,)}",
         b"{'descr': '<f8', 'descr': '<f8', 'fortran_order': False, 'shape': (2,)}\n", b"{'descr': '<f8', 'shape': (2,)}\n",
         b"{'descr': u'<f8', 'fortran_order': False, 'shape': (2,)}\n", b"{'descr': '<f8', 'fortran_order': False, 'shape': [2]}\n", b"", b"\n", b"{}\n"]

def files():
    for shape in SHAPES: yield saved(table(shape))
    for kind in ("<f4", ">f8", "<i8", "?", "<c16"): yield saved(np.zeros((2, 3)).astype(kind))
    for shape in SHAPES:
        if int(np.prod(shape, dtype=int)) > 64 and shape not in ((64, 64), (16, 16, 16)): continue
        for t in (table(shape), narrow(shape)):
            for version in ((1, 0), (2, 0)):
                if t.size > 64 and (version == (2, 0)) == (t.dtype == np.dtype("<f8")): continue
                yield versioned(ordered(t), version)
                if t.size <= 64: yield versioned(t, version)
    yield versioned(table((2, 3)), (3, 0))
    two = saved(table((2,)))[128:]
    for text in TEXTS: yield spelt(text, two)
    yield spelt(TEXTS[0][:-1] + b" " * (9000 - len(TEXTS[0])) + b"\n", two)
    yield spelt(TEXTS[25], b"")
    for good in (saved(np.array([0.25, -0.0])), versioned(ordered(narrow((2, 2))), (2, 0))):
        for p in range(len(good)):
            yield good[:p] + bytes([good[p] ^ (1 + p % 255)]) + good[p + 1:]
            yield good[:p] + good[p + 1:]
            yield good[:p] + good[p:p + 1] + good[p:]
        for n in range(0, 14): yield good[:n]
        yield good + good
    text = TEXTS[0]
    for length in (0, 1, len(text) - 1, len(text), len(text) + 1, len(text) + 16, len(text) + 17, 65535, 65536, 1 << 24, (1 << 31) - 1, 1 << 31, (1 << 32) - 1):
        yield b"\x93NUMPY\x02\x00" + struct.pack("<I", length) + text + two
    yield b"\x93NUMPY\x02\x00" + struct.pack("<I", 65500) + text[:-1] + b" " * (65500 - len(text)) + b"\n" + two

def limited(text, more):
    """the same lines under limits that are larger"""
    w = int(text[:16], 16); vars = w >> 61
    for v in range(vars): w += more << (55 - 12 * v)
    return b"%016x" % w + text[16:]

def answers():
    no = refused(8).encode()
    for shape in SHAPES:
        t = table(shape)
        if len(shape) > 4 or not 1 <= t.size <= 4096 or max(shape, default=1) > 64: continue
        text = lines(t).encode()
        yield b"done 1\n" + text, saved(t)
        yield b"done 64\n" + text, saved(t)
        if max(shape, default=1) < 60: yield b"done 7\n" + limited(text, 3), saved(t)
    t = table((3,)); text = lines(t).encode(); whole = b"done 12\n" + text
    yield whole.replace(b"7ff8000000000000", b"fff0000000000001"), saved(t)
    for other in (b"", b"done", b"done 1", b"done 1\n", b"done \n" + text, b"done 123\n" + text, b"done x\n" + text, b"done 1 \n" + text, b"Done 1\n" + text,
                  b"done 1\r\n" + text, whole + b"\n", whole + b"0", whole[:-1], whole[:-17], whole + whole[-17:], whole.upper(), text, b" " + whole,
                  b"done 1\n" + b"2100000000000001\n" + text[17:34], b"done 1\n2082000000000000\n" + text[17:], b"done 1\n20c4000000000000\n" + text[17:]):
        yield other, no
    for n in range(0, 16, 3):
        for bad in (b"g", b"A", b"\n", b" "): yield whole[:8 + 17 + n] + bad + whole[8 + 17 + n + 1:], no
    for line in (b"refused 8 64 0 0\n", b"refused 1 0 3 2\n", b"refused 12 255 0 0\n", b"refused 8 64\n", b"refused \n", b"refused 7\n"): yield line, line
    for line in (b"refused", b"refused ", b"refused 8 64", b"refused 8 64\n\n", b"refused 8 64\n0", b"refused a b\n", b"Refused 8 64\n", b"refused 8\t64\n",
                 b" refused 8 64\n", b"refused 8 64\r\n"): yield line, no
    yield b"refused " + b"1" * 55 + b"\n", b"refused " + b"1" * 55 + b"\n"
    yield b"refused " + b"1" * 56 + b"\n", no

def main():
    root = os.path.dirname(os.path.dirname(os.path.abspath(__file__)))
    given, wanted, many = b"", b"", 0
    cases = [(FILE, f, expected(f).encode()) for f in files()] + [(ANSWER, a, w) for a, w in answers() if len(a) <= 65536]
    cases += [(NEWER, a, versioned(loaded(w), (2, 0)) if w.startswith(b"\x93") else w) for a, w in answers() if len(a) <= 4096]
    for kind, f, w in cases:
        assert len(f) <= 65536
        given += b"%08x%08x\n" % (kind, len(f)) + f; wanted += w
    for crate, text, out in (("replay_npy", given, wanted), ("to_npy", b"done 3\n" + limited(lines(table((2, 3))).encode(), 1), saved(table((2, 3))))):
        for name, data in (("stdin", text), ("stdout", out)):
            with open(os.path.join(root, "crates", crate, name), "wb") as f: f.write(data)
    kinds = {}
    for kind, f, w in cases:
        k = ("file ", "answer ", "answer for 2.0 ")[kind] + (w.decode().split("\n")[0] if w.startswith(b"refused") else "done")
        if kind != FILE and w.startswith(b"refused") and w != refused(8).encode(): k = "answer refusal passed"
        kinds[k] = kinds.get(k, 0) + 1
    print(len(cases), "cases;", kinds, len(given), len(wanted))

main()
