#!/usr/bin/env python3
"""Respells this repository's own definitions, lemmas and fields in the library's style.

usage: python3 tools/respell.py [TOP [TABLE..]]

TOP (default: the folder above this script's) is a checkout whose files have the old names. For each TABLE in turn
(default: respell.tsv and then respell-more.tsv, beside this script) each word of it is replaced by the word beside it,
all at once, wherever it stands as a whole name: in the .antt files of specs/ and proofs/, in the clauses of src/, in the
texts of must-fail edits, and between backticks in README.md and docs/. Comments, strings and names of functions keep
their spelling. It is meant to run once.
"""
import os
import re
import sys

HERE = os.path.dirname(os.path.realpath(__file__))
WORD = re.compile(r"[\w'₀-₉][\w'₀-₉-]*")
# a string, or a comment to the end of its line: text that keeps its spelling
OPAQUE_RT = re.compile(r'"(?:[^"\\\n]|\\.)*"|//[^\n]*')
OPAQUE_ANTT = re.compile(r'"(?:[^"\\\n]|\\.)*"|(?<![^\s])--[^\n]*')
BACKTICKS = re.compile(r"`[^`\n]*`")


def table(name):
    with open(os.path.join(HERE, name), encoding="utf-8") as f:
        return dict(line.rstrip("\n").split("\t") for line in f if line.strip())


def words(text, names):
    return WORD.sub(lambda m: names.get(m.group(0), m.group(0)), text)


def outside(text, opaque, names):
    out, at = [], 0
    for m in opaque.finditer(text):
        out.append(words(text[at : m.start()], names))
        out.append(m.group(0))
        at = m.end()
    out.append(words(text[at:], names))
    return "".join(out)


def respelled(path, text, names):
    if path.endswith(".rt"):
        return outside(text, OPAQUE_RT, names)
    if path.endswith(".antt"):
        return outside(text, OPAQUE_ANTT, names)
    if path.endswith(".edit"):
        return words(text, names)
    return BACKTICKS.sub(lambda m: words(m.group(0), names), text)


def paths(top):
    for base in ("crates", "docs"):
        for folder, dirs, files in os.walk(os.path.join(top, base)):
            dirs[:] = sorted(d for d in dirs if d not in ("out", "data"))
            for name in sorted(files):
                if name.endswith((".rt", ".antt", ".edit") if base == "crates" else (".md",)):
                    yield os.path.join(folder, name)
    yield os.path.join(top, "README.md")


def main():
    top = sys.argv[1] if len(sys.argv) > 1 else os.path.dirname(HERE)
    for name in sys.argv[2:] or ["respell.tsv", "respell-more.tsv"]:
        names, changed = table(name), 0
        for path in paths(top):
            with open(path, encoding="utf-8") as f:
                old = f.read()
            new = respelled(path, old, names)
            if new != old:
                changed += 1
                with open(path, "w", encoding="utf-8") as f:
                    f.write(new)
        print(f"respell: {name}: {len(names)} words, {changed} files changed")


if __name__ == "__main__":
    main()
