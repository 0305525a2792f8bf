#!/usr/bin/env python3
"""Brings the repository's own definitions and lemmas to the spelling of today's Rattle.

usage: python3 tools/respell.py        at the top of the repository, once, after the toolchain's own port script

A definition, a constructor, a field, a lemma or a variable is written in snake case: `fieldsOf` becomes `fields_of`,
`getD-map-in` becomes `get_or-map-in`. Types, facts, modules and variants keep their capital, and so do the parts of
names that come from them, as in `in-Call`. Functions of src/, strings and file names are left alone. The goals that
the checker names by words of its own (`invariant-of-x`, `offset-bounds-x-i`, ..) get today's words.
"""

import os
import re
import sys

WORD = re.compile(r"(?<![A-Za-z0-9_'])[A-Za-z_][A-Za-z0-9_'ℕℤ₀-₉]*")
STRING = re.compile(r'"(?:[^"\\\n]|\\.)*"')
CAMEL = re.compile(r"^_?[a-z][A-Za-z0-9_'₀-₉]*$")

# words of the older library that stand inside names of this repository
OLD_WORDS = {"getD": "get_or", "eqbE": "eqb_e"}

# lemmas that would get the name of the function that they are about
LEMMAS = re.compile(r"(?<![A-Za-z0-9_'-])(back_to|by_field|digits_onto|into_one|node_at|split_one)(?![A-Za-z0-9_'-])")

# goals of generated proofs, whose own words have underscores now
GOALS = [
    (re.compile(r"(?<![A-Za-z0-9_'-])invariant-of-"), "invariant_of-"),
    (re.compile(r"(?<![A-Za-z0-9_'-])offset-bounds-"), "offset_bounds-"),
    (re.compile(r"(?<![A-Za-z0-9_'-])slice-bounds-"), "slice_bounds-"),
    (re.compile(r"(?<![A-Za-z0-9_'-])overflow-(add|sub|mul|shl|shr|cast|step)-"), r"overflow_\1-"),
    (re.compile(r"(?<![A-Za-z0-9_'-])nonzero-(div|rem)-"), r"nonzero_\1-"),
]


def snake(word):
    if word in OLD_WORDS:
        return OLD_WORDS[word]
    if not CAMEL.match(word) or not re.search(r"[A-Z]", word):
        return word
    out = re.sub(r"(?<=[a-z0-9'])([A-Z])", r"_\1", word)
    out = re.sub(r"([A-Z])([A-Z][a-z])", r"\1_\2", out)
    return out.lower() if out.isascii() else "".join(c.lower() if c.isascii() else c for c in out)


def turned(text):
    return WORD.sub(lambda m: snake(m.group(0)), text)


def antt(text):
    text = LEMMAS.sub(r"\1_lem", text)
    for form, to in GOALS:
        text = form.sub(to, text)
    return turned(text)


def rt(text):
    """Clauses, ghost lines and comments; a string keeps its text."""
    out, at = [], 0
    for m in STRING.finditer(text):
        out += [turned(text[at : m.start()]), m.group(0)]
        at = m.end()
    return "".join(out + [turned(text[at:])])


def main():
    if not os.path.isdir("crates"):
        sys.exit("respell: run it at the top of the repository")
    for folder, dirs, files in os.walk("crates"):
        dirs[:] = sorted(d for d in dirs if d != "out")
        for f in sorted(files):
            if not f.endswith((".antt", ".rt", ".edit")):
                continue
            path = os.path.join(folder, f)
            with open(path, encoding="utf-8") as g:
                old = g.read()
            if f.endswith(".edit"):
                # an edit of a definition; those of src/ have nothing to respell
                new = turned(old).replace("′", "'") if "file: specs/" in old else old
            else:
                new = antt(old) if f.endswith(".antt") else rt(old)
            if new != old:
                with open(path, "w", encoding="utf-8") as g:
                    g.write(new)


if __name__ == "__main__":
    main()
