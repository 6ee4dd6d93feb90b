#!/usr/bin/env python3
"""Brings this repository's own names to the spelling of the Rattle of 2026-11: definitions, fields and lemmas in snake case.

usage: python3 tools/respell.py    once, at the top, after /opt/rattle/port/port.py

A lemma whose name a definition takes gets `_lem`. In proofs/ a fact of a call is named after the function as it is spelled.
Functions of src/, exported C names, strings, inputs and outputs have no name in camel case that begins small, so they stay.
"""

import os
import re
import subprocess
import sys

LEMMAS = "step_sum load_byte same_number same_place value_line same_step same_kind at_side goes_on has_room numbers_fit no_pin is_digit link_fits passes_at out_one laid_on one_way".split()
WORD = re.compile(r"(?<![\w'])[a-z][0-9a-z]*(?:[A-Z][0-9A-Za-z]*)+(?![\w])")


def snake(word):
    word = re.sub(r"([a-z0-9])([A-Z])", r"\1_\2", word)
    return re.sub(r"([A-Z])([A-Z][a-z])", r"\1_\2", word).lower()


def files(ends):
    for folder, dirs, names in os.walk("crates"):
        dirs[:] = sorted(d for d in dirs if d != "out")
        for n in sorted(names):
            if n.endswith(ends):
                yield os.path.join(folder, n)


def read(p):
    with open(p, encoding="utf-8") as f:
        return f.read()


def functions():
    return {m for p in files(".rt") for m in re.findall(r"\bfn\s+([a-z][a-z0-9_]*)", read(p))}


def fields():
    return {m for p in files(".antt") if "/specs/" in p for m in re.findall(r"(?m)^ +([a-z][a-z0-9]*(?:-[a-z0-9]+)+) :", read(p))}


def lemmas(text):
    """Lemmas whose names definitions take; a name after a dot, a colon or a back tick is a function's."""
    declared = [n for n in LEMMAS if re.search(rf"(?m)^ *(?:pub )?{n}(?: [a-z]+)* :", text) or re.search(rf"(?m)^ *use [^\n]*(?<![\w'-]){n}(?![\w'-])", text)]
    for n in declared:
        text = re.sub(rf"(?<![\w.:`'-]){n}(?![\w.'-])", n + "_lem", text)
    return text


def main():
    called = {f.replace("_", "-"): f for f in functions() if "_" in f}
    own = fields()
    longest = sorted(called, key=len, reverse=True)
    call = re.compile(r"(?<=\.)(?:" + "|".join(f for f in longest if f not in own) + r")(?![\w'-])")
    fact = re.compile(r"(?<=\.)(?:" + "|".join(longest) + r")(?=\.(?:ensures|result|new|old)(?![\w'-]))")
    for p in files((".antt", ".rt", ".edit")):
        old = read(p)
        new = lemmas(old) if p.endswith(".antt") else old
        new = WORD.sub(lambda m: snake(m[0]), new)
        if p.endswith(".antt") and "/proofs/" in p:
            new = fact.sub(lambda m: called[m[0]], call.sub(lambda m: called[m[0]], new))
        if new != old:
            with open(p, "w", encoding="utf-8") as f:
                f.write(new)
    for c in sorted(os.listdir("crates")):
        if os.path.isdir(os.path.join("crates", c, "src")):
            subprocess.run(["rt", "fmt"], cwd=os.path.join("crates", c), stdout=subprocess.DEVNULL)
    return 0


if __name__ == "__main__":
    sys.exit(main())
