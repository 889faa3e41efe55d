#!/usr/bin/env python3
"""Brings the repository's own names to today's spelling: words in snake case, types and facts in camel case.

usage: python3 tools/respell.py        once, at the top of the repository, after port.py

A definition, lemma, field or constructor in lower camel case goes to snake case, in crates/*/specs, proofs, src and must-fail,
and where README.md and docs/ name it. Names of Rust and C, strings, inputs and outputs keep theirs.
"""
import glob
import re

# facts and types: camel case; the two lemmas whose names would fall together with a definition's get `_lem`
FIRST = {
    "countInRange": "CountInRange",
    "wellFormed": "IsWellFormed",
    "Four-left": "FourLeft",
    "Ready-to-put": "ReadyToPut",
}
LEMMAS = {
    "crates/board/proofs/Past.antt": {"no_ones": "no_ones_lem"},
    "crates/link/proofs/Faults.antt": {"none_found": "none_found_lem"},
}
# names that the library has respelled, where port.py leaves edits and pages as they are
LIBRARY = {"bitsOf": "bits_of"}
WORD = re.compile(r"(?<![\w'])[A-Za-z_ℕ][\w'-]*")
CAMEL = re.compile(r"[a-z][a-z0-9]*(?:[A-Z][a-z0-9]*)+'*")
STRING = re.compile(r'"(?:[^"\\]|\\.)*"')


def snake(part):
    return re.sub(r"(?<=[a-z0-9])([A-Z])", lambda m: "_" + m.group(1).lower(), part) if CAMEL.fullmatch(part) else part


def word(w):
    if w in FIRST:
        return FIRST[w]
    return "-".join(snake(p) for p in w.split("-"))


def text(t, own=None):
    return WORD.sub(lambda m: word(m.group(0)) if own is None or m.group(0) in own else m.group(0), t)


def outside_strings(t):
    out, at = [], 0
    for m in STRING.finditer(t):
        out += [text(t[at : m.start()]), m.group(0)]
        at = m.end()
    return "".join(out + [text(t[at:])])


def files(*patterns):
    return sorted(f for p in patterns for f in glob.glob(p, recursive=True))


def main():
    own = set(LIBRARY)
    for f in files("crates/*/specs/**/*.antt", "crates/*/proofs/**/*.antt"):
        t = open(f, encoding="utf-8").read()
        own |= {w for w in WORD.findall(t) if word(w) != w}
        for old, new in LEMMAS.get(f, {}).items():
            t = re.sub(r"(?<![\w'-])" + old + r"(?![\w'-])", new, t)
        write(f, text(t))
    for f in files("crates/*/src/**/*.rt"):
        write(f, outside_strings(open(f, encoding="utf-8").read()))
    for f in files("crates/*/must-fail/*.edit"):
        write(f, text(open(f, encoding="utf-8").read(), own))
    for f in files("README.md", "docs/**/*.md"):
        write(f, text(open(f, encoding="utf-8").read(), own))


def write(f, t):
    if open(f, encoding="utf-8").read() != t:
        open(f, "w", encoding="utf-8").write(t)


main()
