#!/usr/bin/env python3
"""Respells the repository's own definitions and lemmas: `a-b` becomes `a_b`, `Is-text-of` becomes `IsTextOf`.

usage: tools/respell.py [--list]      at the top of the repository

What is defined in specs/ and proofs/ is renamed everywhere: in specs/, proofs/, the clauses of src/, the must-fail edits, README.md and docs/.
A fact, type or record that begins with a capital is spelled in upper camel case, everything else in snake case.
A lemma keeps one dash where it joins two definitions (`lines_moves-push`), and gets `_lem` where its new name is taken.
Names that the toolchain makes (goals, steps) spell a function or variable of src/ as src/ does: `find-mismatch-requires` becomes `find_mismatch-requires`.
It ran once, on the commit that port.py had made.
"""
import os
import re
import sys

NAME = r"[A-Za-z_][A-Za-z0-9_'₀-₉-]*"
WORD = re.compile(NAME)
DEFINED = re.compile(r"^(\s*)((?:(?:abbrev|unfoldable|pub|record|data|ruleset)\s+)*)(" + NAME + r")((?:\s+[({].*)?)\s:\s(.*)$")
# a ghost field of the reader has the plain name
SPECIAL = {"main-fits": "main_line_fits"}
MODULE = re.compile(r"^\s*(?:pub\s+)?(?:mod|module|use)\b")
# words of the toolchain's own in the names that it makes
MADE = ["type_inv", "in_default", "in_ok", "in_err", "invariant_of", "overflow_add", "overflow_sub", "overflow_mul", "overflow_cast", "overflow_shl", "overflow_shr", "overflow_step", "slice_bounds", "nonzero_div", "nonzero_rem"]


def files(top, ends):
    for folder, dirs, names in os.walk(top):
        dirs[:] = sorted(d for d in dirs if d not in ("out", ".git"))
        for n in sorted(names):
            if n.endswith(ends):
                yield os.path.join(folder, n)


def read(p):
    with open(p, encoding="utf-8") as f:
        return f.read()


def of_function(path):
    """Whether a proof file is one function's: it stands below a folder of proofs/."""
    return "/proofs/" in path and "/" in path.split("/proofs/", 1)[1]


def defined():
    words, lemmas, made, stated, fields = set(), set(), set(), set(), set()
    for p in files("crates", ".antt"):
        record = False
        for line in read(p).split("\n"):
            if MODULE.match(line) or line.lstrip().startswith("--"):
                continue
            if re.match(r"\s*(?:pub\s+)?record\b", line):
                record = True
            elif line and not line[0].isspace():
                record = False
            m = DEFINED.match(line)
            if not m:
                continue
            name, right = m[3], m[5]
            if right.startswith("goal."):
                made.add(name)
            elif "/specs/" in p or "abbrev" in m[2] or "record" in m[2] or "data" in m[2]:
                words.add(name)
                if "/specs/" in p and not m[1]:
                    stated.add(name)
            else:
                lemmas.add(name)
            if record and m[1] and not right.startswith("goal."):
                fields.add(name)
    return words, lemmas - words, made, stated, fields


def camel(name):
    return "".join(part[:1].upper() + part[1:] for part in name.split("-"))


def spelled(words, lemmas, stated, taken):
    new = {}
    for name in sorted(words):
        if "-" in name:
            new[name] = camel(name) if name[0].isupper() else name.replace("-", "_")
    known = {new.get(n, n) for n in stated} | {"zero", "suc", "or", "and", "not", "none", "some", "cons", "append", "length", "drop", "take", "push", "set", "map"}
    for name in sorted(lemmas):
        if "-" not in name:
            continue
        parts = name.split("-")
        to = "_".join(parts)
        for i in range(len(parts) - 1, 0, -1):
            left, right = "_".join(parts[:i]), "_".join(parts[i:])
            if left in known and right in known:
                to = left + "-" + right
                break
        if to != name:
            new[name] = to + "_lem" if to in taken else to
    return new


def joined(name, idents):
    """The parts of a made name that together spell a name of src/ are joined as there."""
    parts, out, i = name.split("-"), [], 0
    while i < len(parts):
        n = next((n for n in range(len(parts) - i, 1, -1) if "_".join(parts[i:i + n]) in idents), 1)
        out.append("_".join(parts[i:i + n]))
        i += n
    return "-".join(out)


def main():
    words, lemmas, made, stated, fields = defined()
    every, idents = set(), set(MADE)
    for p in files("crates", (".antt", ".rt")):
        t = read(p)
        every |= set(WORD.findall(t))
        if p.endswith(".rt"):
            idents |= {w for w in re.findall(r"\b[a-z][a-z0-9]*(?:_[a-z0-9]+)+\b", re.sub(r"ghost use [^;]*;", "", t))}
    new = spelled(words, lemmas, stated, every)
    new = {a: SPECIAL.get(a, b) for a, b in new.items()}
    back = {}
    for a, b in new.items():
        back.setdefault(b, []).append(a)
    for b, old in sorted(back.items()):
        if len(old) > 1 or b in every:
            print("falls together:", b, "<-", " ".join(old), "(stands already)" if b in every else "")
    print(len(new), "names")
    if "--list" in sys.argv:
        for a, b in sorted(new.items()):
            print(" ", a, "->", b)
        for a in sorted(made):
            if joined(a, idents) != a:
                print("  made:", a, "->", joined(a, idents))
        return

    def turned(p, t):
        own = {m[3] for m in map(DEFINED.match, t.split("\n")) if m and m[5].startswith("goal.")} if of_function(p) else set()

        def word(m):
            w, dot = m[0], m.start() > 0 and t[m.start() - 1] == "."
            if of_function(p) and (w in own or dot and w not in fields):
                return joined(w, idents)
            if dot and p.endswith(".antt") and w not in fields and not re.match(r"(?s).*Rattle\.[\w.]*$", t[max(0, m.start() - 200):m.start()]):
                return joined(w, idents)
            return new.get(w, w)

        return WORD.sub(word, t)

    for p in list(files("crates", (".antt", ".rt", ".edit"))) + [p for p in files(".", ".md") if "CHANGELOG" not in p and "PORT" not in p]:
        t = read(p)
        n = re.sub(r"`[^`\n]*`", lambda m: turned(p, m[0]), t) if p.endswith(".md") else turned(p, t)
        if n != t:
            with open(p, "w", encoding="utf-8") as f:
                f.write(n)


main()
