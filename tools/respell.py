#!/usr/bin/env python3
"""Brings this repository's own names to the toolchain's spelling. It is run once, at the top, after the kit's port.py.

Two crates have the names of libraries of the kit and get others, and the names in respell.tsv (definitions, constructors,
fields and lemmas of specs/ and proofs/) are put in snake case, types in camel case. In a lemma's name a dash stays between
two names. Strings, comments of the sources, functions, inputs and outputs keep their words.
"""
import os
import re
import subprocess

HERE = os.path.dirname(os.path.realpath(__file__))
TOP = os.path.dirname(HERE)
CRATES = {"hex": "hex_text", "slab": "slab_store"}
# A helper of one proof has the name that a definition gets.
FIRST = {"crates/reader/proofs/Parts.antt": {"list_at": "list_there"}}
TOKEN = re.compile(r"(?<![\w'\-])[^\W\d](?:[\w'?]|-(?=[\w]))*")
TEXT = re.compile(r'"(?:[^"\\]|\\.)*"|//[^\n]*')


def names():
    with open(os.path.join(HERE, "respell.tsv"), encoding="utf-8") as f:
        return dict(line.rstrip("\n").split("\t") for line in f)


def turned(text, table):
    return TOKEN.sub(lambda m: table.get(m.group(0), m.group(0)), text)


def outside_texts(text, turn):
    """The text turned, but for its strings and comments."""
    parts, at = [], 0
    for m in TEXT.finditer(text):
        parts += [turn(text[at:m.start()]), m.group(0)]
        at = m.end()
    return "".join(parts + [turn(text[at:])])


def paths(text, crate):
    for old, new in CRATES.items():
        text = re.sub(rf"(?<![\w.])Rattle\.{old}(?=\.)", f"Rattle.{new}", text)
        if crate != old:
            text = re.sub(rf"(?<![\w:.]){old}::", f"{new}::", text)
    return text


def sources():
    for folder, dirs, files in os.walk(os.path.join(TOP, "crates")):
        dirs[:] = sorted(d for d in dirs if d != "out")
        for name in sorted(files):
            if name.endswith((".rt", ".antt", ".edit")):
                yield os.path.join(folder, name)


def main():
    table = names()
    for path in sources():
        with open(path, encoding="utf-8") as f:
            old = f.read()
        text = turned(old, FIRST.get(os.path.relpath(path, TOP), {}))
        crate = os.path.relpath(path, TOP).split(os.sep)[1]
        turn = lambda t: paths(turned(t, table), crate)
        text = outside_texts(text, turn) if path.endswith(".rt") else turn(text)
        if text != old:
            with open(path, "w", encoding="utf-8") as f:
                f.write(text)
    listed = os.path.join(TOP, "crates.txt")
    with open(listed, encoding="utf-8") as f:
        head, *lines = f.read().split("\n")
    word = re.compile(r"\b(" + "|".join(CRATES) + r")\b")
    with open(listed, "w", encoding="utf-8") as f:
        f.write("\n".join([head] + [word.sub(lambda m: CRATES[m.group(1)], line) for line in lines]))
    for old, new in CRATES.items():
        subprocess.run(["git", "mv", f"crates/{old}", f"crates/{new}"], cwd=TOP, check=True)


main()
