#!/usr/bin/env python3
"""Spells the repository's own definitions and lemmas as Rattle now spells words: fontWord becomes font_word.

usage: tools/respell.py    at the top of the repository, after port.py and once

A word is respelled wherever it stands in specs/, proofs/, src/, must-fail/ and docs/, if some file of specs/ or proofs/
has it as a word with a capital inside that begins with a small letter. Types, modules and the papers' names (HT) keep
their spelling, as do the functions of src/, whose names have no capitals. Two words that would become one are refused;
a definition may have the name of the function that it describes.
"""
import glob
import re
import sys

WORD = re.compile(r"[A-Za-z0-9_'₀-₉-]+")
LOGIC = {"WpFn-mono"}
# lemmas of specs/ that have the name of the definition that they speak of
LEMMAS = {word: word + "_lem" for word in ("holds_row", "moved_in", "next_place", "under_of")}


def respelled(word):
    word = word.replace("getD", "get_or")
    word = re.sub(r"(?<=[a-z0-9])([A-Z])", lambda m: "_" + m.group(1).lower(), word)
    return re.sub(r"(?<=_[a-z])([A-Z])", lambda m: m.group(1).lower(), word)


def files(*patterns):
    return sorted(p for pattern in patterns for p in glob.glob(pattern, recursive=True) if "/out/" not in p)


def read(path):
    with open(path, encoding="utf-8") as f:
        return f.read()


def spoken(path):
    """A file's text, with the lemmas named anew."""
    text = read(path)
    return WORD.sub(lambda m: LEMMAS.get(m.group(0), m.group(0)), text) if "/specs/" in path else text


def own_words():
    found = set()
    for path in files("crates/*/specs/**/*.antt", "crates/*/proofs/**/*.antt"):
        text = re.sub(r"--.*", "", read(path))
        text = re.sub(r"Rattle\.[A-Za-z0-9_.+']+", "", text)
        found.update(w for w in WORD.findall(text) if re.match(r"[a-z]", w) and re.search(r"[a-z0-9][A-Z]", w))
    return {w for w in found if not re.search(r"(^|[_-])(Is|All|IsTrue)[A-Z]", w)} - LOGIC


def main():
    table = {w: respelled(w) for w in own_words()}
    back = {}
    for old, new in sorted(table.items()):
        back.setdefault(new, []).append(old)
    clashes = {new: olds for new, olds in back.items() if len(olds) > 1}
    antt = files("crates/*/specs/**/*.antt", "crates/*/proofs/**/*.antt")
    words = set()
    for path in antt:
        text = re.sub(r"--.*|\bRattle\.[^{\s]*|(?<=[\w')])\.[\w'-]+", "", spoken(path))
        words.update(WORD.findall(text))
    for path in files("crates/*/src/**/*.rt"):
        words.difference_update(re.findall(r"\bfn (\w+)", read(path)))
    clashes.update({new: [old, new] for old, new in table.items() if new in words})
    if clashes:
        print("\n".join(f"respell: {' and '.join(olds)} would both be {new}" for new, olds in sorted(clashes.items())))
        return 1
    for path in antt + files("crates/*/src/**/*.rt", "crates/*/must-fail/*.edit", "docs/*.md"):
        old = read(path)
        new = WORD.sub(lambda m: table.get(m.group(0), m.group(0)), spoken(path))
        if new != old:
            with open(path, "w", encoding="utf-8") as f:
                f.write(new)
    print(f"respell: {len(table)} words")
    return 0


sys.exit(main())
