#!/usr/bin/env python3
"""Brings the names of this repository's own definitions and lemmas to the spelling of today's Rattle: words in snake case.

usage: python3 tools/spell.py          at the top, once, after the port's own script

It goes by text, over the files of specs/ and proofs/, the clauses and comments of src/ and the must-fail edits. A word that begins small and
has a capital inside (`takeFrom`) is written `take_from`; types, facts and modules, which begin with a capital, stay as they are, and so do
variables of one small and one capital letter. A lemma whose name would then be that of the function which it is about gets `_lem`, as the
spelling of the library has it. Functions of src/ and names that C sees have no capitals, so none of them is touched.
"""

import os
import re
import sys

WORD = re.compile(r"(?<![A-Za-z0-9_'])[a-z][A-Za-z0-9_]*")
INSIDE = re.compile(r"(?<=[a-z0-9])[A-Z]")
VARIABLE = re.compile(r"[a-z][A-Z]")
SPECIAL = {"getD": "get_or", "turnIn": "asking_turn"}

# Lemmas that had the name of the function which they are about, but for its spelling: the crates in which the name is the lemma's.
LEMMAS = {
    "ask_in": ["layout_laws"],
    "asked_in": ["layout_laws"],
    "block_in": ["passing", "isolates", "heap"],
    "bound_all": ["checks"],
    "copied_at": ["passing", "entity_kinds", "layout_laws", "actor", "heap", "making"],
    "fields_in": ["layout_laws"],
    "few_words": ["script"],
    "four_bytes": ["dictionary"],
    "head_at": ["redex"],
    "is_digit": ["input_line"],
    "is_name": ["substitution"],
    "is_state": ["invariant", "layout_laws", "atlite", "decoding"],
    "lines_at": ["layout_laws"],
    "made_at": ["entity_kinds", "layout_laws", "rules", "actor", "heap", "making"],
    "made_holds": ["actor"],
    "made_word": ["redex", "rules", "making"],
    "name_in": ["layout_laws"],
    "same_signature": ["changes"],
    "value_in": ["layout_laws"],
    "word_count": ["passing", "loading"],
}
LEMMA = re.compile(r"(?<![A-Za-z0-9_'.-])(" + "|".join(LEMMAS) + r")(?![A-Za-z0-9_'-])")


def spelled(m):
    w = m.group(0)
    if w in SPECIAL:
        return SPECIAL[w]
    if VARIABLE.fullmatch(w):
        return w
    return INSIDE.sub(lambda c: "_" + c.group(0).lower(), w)


def texts(top):
    for folder, dirs, files in os.walk(os.path.join(top, "crates")):
        dirs[:] = sorted(d for d in dirs if d != "out")
        for f in sorted(files):
            if f.endswith((".rt", ".antt", ".edit")):
                yield os.path.join(folder, f)


def turned(path, top, text):
    crate = os.path.relpath(path, os.path.join(top, "crates")).split(os.sep)[0]
    inside = os.sep + "specs" + os.sep in path
    if inside:
        text = LEMMA.sub(lambda m: m.group(1) + "_lem" if crate in LEMMAS[m.group(1)] else m.group(1), text)
    return WORD.sub(spelled, text)


def main():
    top = os.getcwd()
    if not os.path.isdir(os.path.join(top, "crates")):
        print("spell: run it at the top of the repository", file=sys.stderr)
        return 2
    n = 0
    for path in texts(top):
        with open(path, encoding="utf-8") as f:
            old = f.read()
        new = turned(path, top, old)
        if new != old:
            with open(path, "w", encoding="utf-8") as f:
                f.write(new)
            n += 1
    print(f"spell: {n} files changed")
    return 0


if __name__ == "__main__":
    raise SystemExit(main())
