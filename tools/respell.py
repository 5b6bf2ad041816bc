#!/usr/bin/env python3
"""Respells the repository's own definitions and lemmas: words in snake case, as the kit spells its own.

usage: python3 tools/respell.py        at the top of the repository, after /opt/rattle/port/port.py

It goes by text over crates/ (.antt, .rt, .edit), and over the pages (README.md, docs/, tests/README.md) for names that stand in crates/.
Names that begin with a capital are types, modules, constants or a column's name, and stay. A name that is spelled so already stays.
"""

import os
import re
import sys

WORD = re.compile(r"(?<![\w'])[a-z][a-z0-9]*(?:[A-Z][A-Za-z0-9]*)+(?![\w])")
HUMP = re.compile(r"(?<=[a-z0-9])([A-Z]+)")
# lemmas that would fall together with a definition: they are the lemma of it
LEMMAS = {
    "crates/writer/proofs/Laws.antt": ["line_after"],
    "crates/rows_and_places/proofs/RowsAndPlaces.antt": ["line_read"],
    "crates/rows_and_places/proofs/read/read_lines/Proof.antt": ["line_read"],
    "crates/reader/proofs/RowsAndPlaces.antt": ["line_read"],
    "crates/reader/proofs/read/read_lines/Proof.antt": ["line_read"],
    "crates/saved/proofs/StateReadBack.antt": ["point_at"],
    "crates/model/proofs/Safety.antt": ["size_fits"],
}
# local names of two letters, which are no words
STAY = {"nLT", "nP"}


def snake(word):
    return word if word in STAY else HUMP.sub(lambda m: "_" + m.group(1).lower(), word)


def texts(endings, tops):
    for top in tops:
        if os.path.isfile(top):
            yield top
        for folder, dirs, files in os.walk(top):
            dirs[:] = sorted(d for d in dirs if d not in ("out", "target", ".git"))
            for f in sorted(files):
                if f.endswith(endings):
                    yield os.path.join(folder, f)


def rewritten(path, change):
    with open(path, encoding="utf-8") as f:
        old = f.read()
    new = change(old)
    if new != old:
        with open(path, "w", encoding="utf-8") as f:
            f.write(new)
    return new != old


def main():
    if not os.path.isdir("crates"):
        print("run it where crates/ is", file=sys.stderr)
        return 2
    n = 0
    for path, lemmas in LEMMAS.items():
        if os.path.isfile(path):
            for name in lemmas:
                whole = re.compile(r"(?<![\w'.-])" + name + r"(?![\w'-])")
                n += rewritten(path, lambda t: whole.sub(name + "_lem", t))
    known = set()
    for path in texts((".antt", ".rt", ".edit"), ["crates"]):
        n += rewritten(path, lambda t: WORD.sub(lambda m: snake(m.group(0)), t))
        if path.endswith((".antt", ".rt")):
            with open(path, encoding="utf-8") as f:
                known |= set(re.findall(r"[a-z][\w]*", f.read()))

    def page(text):
        return WORD.sub(lambda m: snake(m.group(0)) if snake(m.group(0)) in known else m.group(0), text)

    for path in texts((".md",), ["README.md", "docs", "tests/README.md"]):
        n += rewritten(path, page)
    print(f"respell: {n} files changed")
    return 0


if __name__ == "__main__":
    raise SystemExit(main())
