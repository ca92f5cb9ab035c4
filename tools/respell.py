#!/usr/bin/env python3
"""Turns the repository's own definitions and lemmas to snake case, as today's Rattle spells them.

usage: tools/respell.py            at the top, after port.py: rewrites crates/*/{src,specs,proofs,must-fail}
       tools/respell.py --list     prints old and new names, and writes nothing
       tools/respell.py --dashes   does only the second part of it

First, humps go: tablesOf becomes tables_of. Second, what specs/ declares with a dash has an underscore: d-choose becomes
d_choose. A dash still joins the names in a lemma's name, a fact in it keeps its capital, and a name from the code, a
string and a type keep their spelling. What is renamed is found in specs/ and proofs/ alone; the same words then follow in
clauses and comments of src/ and in the edits.
"""

import os
import re
import sys

LIBRARY = {"getD": "get_or"}
# Lemmas whose name is now their definition's: that name gets _lem.
LEMMAS = {w: w + "_lem" for w in ("shut_out", "ends_as", "def_at", "due_in", "pick_next")}
WORD = re.compile(r"[^\W\d][\w'-]*")
HUMP = re.compile(r"(?<=[a-z0-9])(?=[A-Z])")
PART = re.compile(r'"(?:[^"\\]|\\.)*"|\b[^\W\d][\w\'-]*', re.S)


def turned(word):
    parts = []
    for part in word.split("-"):
        part = LIBRARY.get(part, part)
        if part[:1].islower():
            part = "_".join(p if p.isupper() and len(p) > 1 else p.lower() for p in HUMP.split(part)) if "_" not in part else "_".join(turned_piece(p) for p in part.split("_"))
        parts.append(part)
    return "-".join(parts)


def turned_piece(piece):
    return "_".join(p.lower() for p in HUMP.split(piece)) if piece[:1].islower() else piece


def files(root, folders, ending):
    for crate in sorted(os.listdir(os.path.join(root, "crates"))):
        for folder in folders:
            for at, dirs, names in os.walk(os.path.join(root, "crates", crate, folder)):
                dirs.sort()
                for name in sorted(names):
                    if name.endswith(ending):
                        yield os.path.join(at, name)


def read(path):
    with open(path, encoding="utf-8") as f:
        return f.read()


def words(text):
    for line in text.split("\n"):
        if not line.lstrip().startswith("--"):
            for m in PART.finditer(line):
                if not m.group().startswith('"'):
                    yield m.group()


def renamed(root):
    seen = set()
    for path in files(root, ("specs", "proofs"), ".antt"):
        seen.update(words(read(path)))
    names = {w: turned(w) for w in seen if turned(w) != w}
    for old, new in sorted(names.items()):
        if new in seen or list(names.values()).count(new) > 1:
            print(f"look: {old} becomes {new}, which stands already", file=sys.stderr)
    return names


DECLARED = re.compile(r"\s*(?:\|\s*)?(?:(?:unfoldable|abbrev|mutual|pub|data|record) )*([^\s(){}:=]+)\s*(?:\{[^}]*\}\s*|\([^)]*\)\s*)*:(?!:)")


def dashed(root):
    """What specs/ declares with a dash: definitions, constructors, fields."""
    found = set()
    for path in files(root, ("specs",), ".antt"):
        for line in read(path).split("\n"):
            m = DECLARED.match(line)
            # A constant's word keeps its dash: with an underscore it would fall together with the constant of src/.
            if m and "-" in m.group(1) and not m.group(1).isupper() and not line.lstrip().startswith("--") and not line.startswith("use "):
                found.add(m.group(1))
    return {w: w.replace("-", "_") for w in found}


def rewrite(root, names, lemmas):
    for folders, ending in ((("specs", "proofs"), ".antt"), (("src",), ".rt"), (("must-fail",), ".edit")):
        for path in files(root, folders, ending):
            text = before = read(path)
            if lemmas and ending == ".antt":
                text = re.sub(r"(?<![\w'.-])(" + "|".join(LEMMAS) + r")(?![\w'-])", lambda m: LEMMAS[m.group()], text)
            # An edit's text is one line of code each, so a quote in it is a string of the code too.
            new = PART.sub(lambda m: m.group() if m.group().startswith('"') else names.get(m.group(), m.group()), text)
            if new != before:
                with open(path, "w", encoding="utf-8") as f:
                    f.write(new)


def main():
    root = os.path.dirname(os.path.dirname(os.path.abspath(__file__)))
    if "--list" in sys.argv:
        for old, new in sorted((renamed(root) | dashed(root)).items()):
            print(old, new)
        return
    if "--dashes" not in sys.argv:
        rewrite(root, renamed(root), True)
    rewrite(root, dashed(root), False)


main()
