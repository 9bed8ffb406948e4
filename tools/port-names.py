#!/usr/bin/env python3
"""Brings the names of definitions and lemmas to today's spelling, once, after the toolchain's port.py.

usage: python3 tools/port-names.py [--print]

In specs/ and proofs/ a definition is in snake case; so is a lemma, and a dash in its name stands only beside the name of a
definition that has two words. Types, constructors, modules, functions of src/, exported names, strings and inputs keep theirs.
A lemma that would fall together with its definition gets `_lem`. Other names that would fall together stop it; a name that a
file has already, as a function's module has, is printed.
"""

import glob
import re
import sys

ANTT = sorted(glob.glob("crates/*/specs/*.antt") + glob.glob("crates/*/proofs/**/*.antt", recursive=True))
RT = sorted(glob.glob("crates/*/src/*.rt"))
EDITS = sorted(glob.glob("crates/*/must-fail/*.edit"))
PAGES = ["README.md"] + sorted(glob.glob("docs/*.md"))

# Lemmas of a definition of the same name; the toolchain's script has turned the last one's dash already.
LEMMAS = {"well-formed": "well_formed_lem", "read-lands": "read_lands_lem"}
LEMMAS_IN = {"crates/gmch/proofs/Routing.antt": {"fits_word": "fits_word_lem"}}

TOKEN = re.compile(r"[\w'₀-₉◌ℕ-]*[\w'₀-₉◌ℕ]", re.UNICODE)
CAMEL = re.compile(r"[a-z]\w*[A-Z]")
DEFINED = re.compile(
    r"^\s*(?:(?:abbrev|unfoldable|pub)\s+)*([^\s(){}:=,.λ]+)\s*(?:\{[^}]*\}\s*|\([^)]*\)\s*)*:\s", re.MULTILINE
)


def read(path):
    with open(path, encoding="utf-8") as f:
        return f.read()


def snake(word):
    return re.sub(r"(?<=[a-z0-9])([A-Z])", lambda m: "_" + m.group(1).lower(), word)


def turned(name):
    if name in LEMMAS:
        return LEMMAS[name]
    parts = name.split("-")
    if len(parts) == 1 or not any(CAMEL.match(p) for p in parts):
        return "_".join(snake(p) for p in parts)
    # A dash stays on both sides of a definition's name; plain words are joined.
    out = snake(parts[0])
    for before, after in zip(parts, parts[1:]):
        out += ("-" if CAMEL.match(before) or CAMEL.match(after) else "_") + snake(after)
    return out


def tokens(text):
    return set(TOKEN.findall(text))


def names():
    found = set()
    words = set()
    for path in ANTT:
        text = read(path)
        words |= tokens(text)
        # Goals of a function have names that the toolchain gives.
        own = re.match(r"crates/\w+/(specs|proofs)/\w+\.antt$", path)
        if own:
            found |= {n for n in DEFINED.findall(text) if "-" in n.strip("-")}
    for path in RT:
        words |= tokens(read(path))
    found |= {w for w in words if CAMEL.match(w) and "-" not in w}
    return {n: turned(n) for n in sorted(found) if turned(n) != n}, words


def main():
    table, words = names()
    back = {}
    for old, new in table.items():
        if new in back:
            sys.exit(f"fall together: {old}, {back[new]} as {new}")
        back[new] = old
    for path in ANTT + RT:
        here = tokens(read(path))
        for old, new in table.items():
            if old in here and new in here and not (path.endswith(".rt") and f"fn {new}" in read(path)):
                print(f"stands there already: {old} as {new} in {path}")
    if "--print" in sys.argv:
        for old, new in table.items():
            print(old, new)

    def put(m):
        return table.get(m.group(0), m.group(0))

    for path in ANTT + RT + EDITS:
        text = read(path)
        after = TOKEN.sub(lambda m: LEMMAS_IN.get(path, {}).get(m.group(0)) or put(m), text)
        if after != text:
            with open(path, "w", encoding="utf-8") as f:
                f.write(after)
    for path in PAGES:
        text = read(path)
        after = re.sub(r"`[^`\n]*`", lambda m: TOKEN.sub(put, m.group(0)), text)
        if after != text:
            with open(path, "w", encoding="utf-8") as f:
                f.write(after)
    return 0


raise SystemExit(main())
