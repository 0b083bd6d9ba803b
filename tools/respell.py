#!/usr/bin/env python3
"""Gives this repository's own names in specs/ and proofs/ today's spelling.

usage: respell.py [--dry]        at the top of the repository, once, after port.py

A name that a file of specs/ or a file of lemmas declares and that has dashes is turned wherever it stands: words are joined by `_`, and a name that
begins with a capital is written in camel case. Names of the sources, of strings and of what Rattle makes itself stay.
Names that would fall together with another name of the same file are left, and said.
"""
import glob
import os
import re
import sys

TOKEN = re.compile(r"[^\s(){}.;,@\"«»\[\]\\`]+")
NAME = r"[^\s:(){}λ,;=]+"
DECLARED = re.compile(rf"^\s*(?:let )?(?:(?:pub|abbrev|unfoldable|data|record|mutual) )*({NAME}(?: {NAME})*)((?:\s+[({{].*?[)}}])*)\s+:\s")
BOUND = re.compile(rf"[({{]({NAME}(?: {NAME})*) : |\blet ({NAME}) =")
# These would fall together with a variant of the sources and with a name of the library.
OTHERS = {"Bad-line": "BadAtLine", "of-bits": "all_of_bits"}
# Joined to a type or a letter, not to a word.
JOINED = re.compile(r"^([A-Zℕℤ]|Frac)-")


def files(*patterns):
    return sorted({f for p in patterns for f in glob.glob(p, recursive=True) if os.path.isfile(f)})


def read(f):
    with open(f, encoding="utf-8") as it:
        return it.read()


def spelled(name):
    if name in OTHERS:
        return OTHERS[name]
    if JOINED.match(name):
        return name
    parts = name.split("-")
    if name[0].isupper():
        return "".join(p[:1].upper() + p[1:] for p in parts)
    return "_".join(parts)


def own_names():
    names = {}
    for f in files("crates/*/specs/**/*.antt", "crates/*/proofs/*.antt"):
        for line in read(f).split("\n"):
            found = [DECLARED.match(line)] + list(BOUND.finditer(line.split("-- ")[0]))
            for name in [w for m in found if m for w in (m.group(1) or m.group(m.lastindex)).split()]:
                if "-" in name and re.match(r"^[^\W\d_]", name) and spelled(name) != name:
                    names[name] = spelled(name)
    return names


def outside(text):
    """What a file takes from elsewhere, by its lines `use`."""
    found = set()
    for m in re.finditer(r"(?m)^(?:ghost )?(?:pub )?use ([^\s{]+?)\.?(?:\{([^}]*)\}|$| as)", text):
        own = re.match(r"Rattle\.(\w+)", m.group(1))
        if own and os.path.isdir("crates/" + own.group(1)):
            continue
        for w in (m.group(2) or "").split(","):
            found.add(w.strip().split(" as ")[0])
    return found


def turn(text, names, f, ticks=False):
    away = outside(text)
    tokens = set(TOKEN.findall(text))
    left = set()
    for t in sorted(tokens):
        if t in names and t not in away and names[t] in tokens:
            left.add(t)

    def one(m):
        t = m.group()
        return names[t] if t in names and t not in away else t

    if ticks:
        return re.sub(r"`[^`\n]+`", lambda m: TOKEN.sub(one, m.group()), text), set()
    keep = re.split(r'("(?:[^"\\\n]|\\.)*")', text) if f.endswith(".rt") else [text]
    return "".join(p if p.startswith('"') and f.endswith(".rt") else TOKEN.sub(one, p) for p in keep), left


def main(dry):
    names = own_names()
    together = {}
    for old, new in names.items():
        together.setdefault(new, set()).add(old)
    said = 0
    for new, olds in sorted(together.items()):
        if len(olds) > 1:
            print("two names fall together:", ", ".join(sorted(olds)), "->", new)
            said += 1
    turned = []
    for f in files("crates/*/specs/**/*.antt", "crates/*/proofs/**/*.antt", "crates/*/src/**/*.rt"):
        text = read(f)
        new, left = turn(text, names, f)
        for t in sorted(left):
            print(f"{f}: {t} falls together with {names[t]}")
            said += 1
        if new != text:
            turned.append((f, new))
    for f in files("README.md", "docs/*.md"):
        text = read(f)
        new, _ = turn(text, names, f, ticks=True)
        if new != text:
            turned.append((f, new))
    print(f"{len(names)} names, {len(turned)} files, {said} said")
    if not dry:
        for f, new in turned:
            with open(f, "w", encoding="utf-8") as it:
                it.write(new)


if __name__ == "__main__":
    main("--dry" in sys.argv[1:])
