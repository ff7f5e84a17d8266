#!/usr/bin/env python3
"""Spells the repository's own definitions and lemmas as Rattle's library does: snake case for words, by respell.tsv beside this file.

usage: python3 tools/respell.py

Run it once, at the top, after /opt/rattle/port/port.py and before any edit by hand. It goes by whole names: in specs/ and proofs/ in every text but strings,
in comments only for names with a capital in them; in src/ and in must-fail/*.edit in clauses, and elsewhere only for names with a capital in them. A name that
a file imports from a library stays in that file. A row is the old name, the new one and, where the row holds only in some files, how their paths begin.
Functions of src/, exported names, strings, inputs and outputs are not touched.
"""

import glob
import os
import re

HERE = os.path.dirname(os.path.realpath(__file__))
TOKEN = re.compile(r"--[^\n]*|\"(?:[^\"\\\n]|\\.)*\"|[^\s(){}.;,@\"«»\[\]\\`]+")
USE = re.compile(r"(?m)^(?:pub )?use (\S+?)\.\{([^}]*)\}")
OWN = re.compile(r"Rattle\.(?!std\b|core\b)")
CLAUSE = re.compile(r"^\s*(?:requires|ensures|ghost)\b")
CAMEL = re.compile(r"(?<![\w'-])[a-z][a-z0-9]*(?:[A-Z][A-Za-z0-9]*)+(?![\w'-])")


def rows():
    with open(os.path.join(HERE, "respell.tsv"), encoding="utf-8") as f:
        for line in f:
            old, new, *where = line.rstrip("\n").split("\t")
            yield old, new, tuple(where)


ROWS = list(rows())


def table(path):
    return {old: new for old, new, where in ROWS if not where or path.startswith(where)}


def named(text, names, walked=False):
    """Text of specs/ and proofs/, or of a clause. In a proof that walks the code a name behind a dot may be a step of the code."""

    def one(m):
        word = m[0]
        if word.startswith("--"):
            return CAMEL.sub(lambda c: names.get(c[0], c[0]), word)
        new = names.get(word)
        if not new or word.startswith('"'):
            return word
        behind = m.start() > 0 and text[m.start() - 1] == "."
        if walked and behind and (new.endswith("_lem") or text[:m.start()].endswith("tie.")):
            return word
        return new

    return TOKEN.sub(one, text)


def in_antt(path, text):
    names = table(path)
    for m in USE.finditer(text):
        if not OWN.match(m[1]):
            for name in m[2].split(","):
                names.pop(name.strip(), None)
    return named(text, names, path.endswith("/Proof.antt"))


def in_source(path, text):
    names = table(path)
    lines = []
    for line in text.split("\n"):
        if CLAUSE.match(line):
            line = named(line, names)
        else:
            line = CAMEL.sub(lambda c: names.get(c[0], c[0]), line) if '"' not in line else line
        lines.append(line)
    return "\n".join(lines)


def in_edit(path, text):
    lines, antt = [], False
    names = table(os.path.dirname(os.path.dirname(path)) + "/")
    for line in text.split("\n"):
        if line.startswith("file: "):
            antt = line.rstrip().endswith(".antt")
            names = table(os.path.join(os.path.dirname(os.path.dirname(path)), line[6:].strip()))
        m = re.match(r"(old: |new: )(.*)", line)
        if m and (antt or CLAUSE.match(m[2])):
            line = m[1] + named(m[2], names)
        elif m:
            line = m[1] + CAMEL.sub(lambda c: names.get(c[0], c[0]), m[2])
        lines.append(line)
    return "\n".join(lines)


def main():
    changed = 0
    for how, pattern in (
        (in_antt, "crates/*/specs/**/*.antt"),
        (in_antt, "crates/*/proofs/**/*.antt"),
        (in_source, "crates/*/src/**/*.rt"),
        (in_edit, "crates/*/must-fail/*.edit"),
    ):
        for path in sorted(glob.glob(pattern, recursive=True)):
            with open(path, encoding="utf-8") as f:
                text = f.read()
            new = how(path, text)
            if new != text:
                changed += 1
                with open(path, "w", encoding="utf-8") as f:
                    f.write(new)
    print(f"respell: {changed} files changed")


if __name__ == "__main__":
    main()
