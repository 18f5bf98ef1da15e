#!/usr/bin/env python3
"""Brings the repository's own definitions and lemmas to the spelling of today's Rattle, once, after its port script.

usage: tools/respell.py        at the top of the repository

    polyOf, good-word-is, length-polyOf  ->  poly_of, good_word_is, length-poly_of

What crates/*/specs declares is respelled there, in proofs, in clauses, in must-fail edits and, between backticks, in
pages: words are joined by '_', and a dash stays between two names. Types, modules, strings, functions of src/ and names
that others declare stay. A lemma that would have the name of a definition or a function gets '_lem'.
"""

import os
import re
import sys

NAME = r"[^\s(){}.;,@\"«»\[\]\\`:]+"
TOKEN = re.compile(r'"(?:[^"\\]|\\.)*"|' + NAME)
SIGNED = re.compile(r"^\s*(?:(abbrev|unfoldable|pub|record|data|open)\s+)*(?:\|\s*)?(" + NAME + r")((?:\s+\{[^}]*\}|\s+\([^)]*\))*)\s+:\s")
WORD = re.compile(r"^(abbrev|unfoldable|pub|record|data|let|in|use|unfolding|unfold|elim|module|where|open|mutual|ruleset|infix\w*|_|\|)$")


def read(path):
    with open(path, encoding="utf-8") as it:
        return it.read()


def below(top, endings):
    for folder, folders, files in os.walk(top):
        folders[:] = sorted(f for f in folders if f not in ("out", ".git", "target"))
        for f in sorted(files):
            if f.endswith(endings):
                yield os.path.join(folder, f)


def snake(name):
    return re.sub(r"(?<=[a-z0-9'])([A-Z])", lambda m: "_" + m.group(1).lower(), name)


def is_camel(name):
    return re.match(r"^[a-z]", name) is not None and re.search(r"[a-z0-9'][A-Z]", name) is not None


def bare(line):
    return re.sub(r"(^|\s)--.*", "", line)


def declared():
    """The names that specs/ declares: of each whether it is a definition, and not a lemma."""
    found = {}
    for path in below("crates", ".antt"):
        if "/specs/" not in path:
            continue
        inside = None
        for line in read(path).split("\n"):
            line = bare(line)
            indent = len(line) - len(line.lstrip())
            m = SIGNED.match(line)
            if inside is not None and line.strip() and indent <= inside:
                inside = None
            if m and not WORD.match(m.group(2)) and not m.group(2).startswith("λ"):
                is_type = re.match(r"\s*(pub\s+)?(data|record)\s", line)
                defines = bool(re.match(r"\s*((pub|abbrev|unfoldable)\s+)*(abbrev|unfoldable)\s", line)) or is_type or inside is not None
                found[m.group(2)] = found.get(m.group(2), False) or bool(defines)
                if is_type:
                    inside = indent
    return found


def foreign():
    """The names that come from elsewhere: what files import of other libraries than the repository's own."""
    own = set(os.listdir("crates"))
    found = set()
    for path in below("crates", (".antt", ".rt")):
        for m in re.finditer(r"use\s+([\w.]+?)\.\{([^}]*)\}", read(path)):
            parts = m.group(1).split(".")
            if parts[0] == "Rattle" and len(parts) > 1 and parts[1] in own:
                continue
            found |= {w for it in m.group(2).split(",") for w in it.replace(" as ", " ").split()}
    return found


def functions():
    return {m for path in below("crates", ".rt") for m in re.findall(r"\bfn (\w+)", read(path))}


def respelled(name, known):
    """A lemma's name: parts that are names, joined by dashes, and plain words joined by '_'."""
    words = [snake(w) for w in name.split("-")]
    parts, i = [], 0
    while i < len(words):
        for j in range(len(words), i, -1):
            if "_".join(words[i:j]) in known:
                break
        else:
            j = i + 1
        part = "_".join(words[i:j])
        if parts and part not in known:
            parts[-1] += "_" + part
        else:
            parts.append(part)
        i = j
    return "-".join(parts)


# Definitions whose plain spelling another definition has.
APART = {
    "noKind": "kindless",
    "in-variable": "in_the_variable",
    "is-fresh": "starts_fresh",
    "no-fault": "without_fault",
    "of-first": "of_the_first",
    "of-second": "of_the_second",
}


def table():
    found, others = declared(), foreign()
    defs = {n for n, is_def in found.items() if is_def}
    known = {snake(n).replace("-", "_") for n in defs if n[0].islower()}
    known |= {n for n in others if re.match(r"^[a-z_ℕℤ]\w*$", n)} | functions()
    seen = {t for path in below("crates", ".antt") for t in TOKEN.findall(re.sub(r"(?m)(^|\s)--.*", "", read(path)))}
    own = [n for n in sorted(found) if n not in others and re.match(r"^[^\W\dA-Z]", n) and "◌" not in n]
    to = {n: APART.get(n, snake(n).replace("-", "_")) for n in own if n in defs}
    taken = set(to.values()) | others | functions()
    for name in own:
        if name not in defs:
            new = respelled(name, known)
            to[name] = new + "_lem" if new in taken or (new != name and new in seen) else new
            taken.add(to[name])
    to = {a: b for a, b in to.items() if a != b}
    fallen = {b for b in to.values() if sum(1 for it in to.values() if it == b) > 1}
    return to, sorted(a for a, b in to.items() if b in fallen)


def turned(text, to):
    def one(m):
        it = m.group(0)
        if it.startswith('"'):
            return it
        if not is_camel(it) and m.start() and text[m.start() - 1] == "." and it not in FIELDS:
            return it
        return to.get(it, it)

    return TOKEN.sub(one, text)


def turned_antt(text, to, camel):
    out = []
    for line in text.split("\n"):
        m = re.search(r"(^|\s)--( |$)", line)
        code, note = (line[: m.start()], line[m.start() :]) if m else (line, "")
        out.append(turned(code, to) + turned(note, camel))
    return "\n".join(out)


FIELDS = set()


def fields():
    """Names with a dash that records of specs/ have as fields."""
    found = set()
    for path in below("crates", ".antt"):
        if "/specs/" in path:
            for block in re.findall(r"(?m)^(?:pub )?record .*\n((?:[ \t]+.*\n|\n)*)", read(path)):
                found |= {m for m in re.findall(r"(?m)^\s+(?:pub )?(" + NAME + r")\s+:\s", block) if "-" in m}
    return found


def main():
    FIELDS.update(fields())
    to, told = table()
    camel = {a: b for a, b in to.items() if is_camel(a)}
    # A name in code that is spelled like a lemma is a function's, and stays.
    spelled = {a: b for a, b in to.items() if is_camel(a) or "-" in a}
    for path in list(below("crates", (".antt", ".rt", ".edit"))) + list(below(".", ".md")):
        old = read(path)
        if path.endswith(".antt"):
            new = turned_antt(old, to, camel)
        elif path.endswith(".md"):
            new = re.sub(r"`[^`\n]+`", lambda m: turned(m.group(0), to), old)
        else:
            in_code = path.endswith(".rt") or "file: src/" in old
            new = turned(old, spelled if in_code else to)
        if new != old:
            with open(path, "w", encoding="utf-8") as it:
                it.write(new)
    for name in told:
        print(f"two names fall together: {name} -> {to[name]}")
    print(f"{len(to)} names respelled")


if __name__ == "__main__":
    sys.exit(main())
