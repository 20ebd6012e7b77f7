#!/usr/bin/env python3
"""Spells the repository's own definitions and lemmas as today's Rattle does: words in snake case.

usage: tools/respell.py        at the top of a checkout, once, right after the kit's port.py

A row of respelled.tsv is: old, a tab, new, and perhaps a tab and the beginning of the paths below crates/ that it holds for (only antt's files). A row without a
path holds everywhere: in antt's files and the must-fail edits of whole tokens, in Rattle's files of the names in `ghost use` items, clauses and comments, and in
the pages of names in backquotes. Text in quotes stays.
"""

import os
import re

HERE = os.path.dirname(os.path.realpath(__file__))
TOKEN = re.compile(r'"(?:[^"\\\n]|\\.)*"|[^\s(){}.;,@"«»]+|"')
NAME = re.compile(r"(?<![A-Za-z0-9_])[a-z][a-z0-9]*(?:[A-Z][a-z0-9]*)+(?![A-Za-z])")
GHOST = re.compile(r"ghost\s+use\b[^;]*;|(?:requires|ensures)\s+(?:\w+\s+)?\{.*\}|//.*")
SPAN = re.compile(r"`[^`\n]+`")


def rows():
    everywhere, below = {}, []
    with open(os.path.join(HERE, "respelled.tsv"), encoding="utf-8") as f:
        for line in f:
            old, new, *path = line.rstrip("\n").split("\t")
            if path:
                below.append((path[0], old, new))
            else:
                everywhere[old] = new
    return everywhere, below


def tokens(text, table):
    return TOKEN.sub(lambda m: m[0] if m[0].startswith('"') else table.get(m[0], m[0]), text)


def names(text, table):
    """The names in camel case of a text that is not all antt: each by its own row, or as a part of a longer one."""
    plain = {o: n for o, n in table.items() if NAME.fullmatch(o)}
    return NAME.sub(lambda m: plain.get(m[0], m[0]), text)


def main():
    everywhere, below = rows()
    changed = 0
    for folder, dirs, files in os.walk("crates"):
        dirs[:] = sorted(d for d in dirs if d != "out")
        for name in sorted(files):
            path = os.path.join(folder, name)
            inside = path[len("crates/"):]
            if not name.endswith((".antt", ".rt", ".edit")):
                continue
            with open(path, encoding="utf-8") as f:
                text = f.read()
            table = dict(everywhere)
            if name.endswith(".antt"):
                table.update({o: n for p, o, n in below if inside.startswith(p)})
                new = tokens(text, table)
                # the comments' names too: a token may have a mark of the sentence beside it
                new = re.sub(r"(?m)--.*", lambda m: names(m[0], table), new)
            elif name.endswith(".rt"):
                new = GHOST.sub(lambda m: names(tokens(m[0], table), table) if not m[0].startswith("//") else names(m[0], table), text)
            else:
                new = re.sub(r"(?m)^(?:old|new): .*", lambda m: names(tokens(m[0], table), table), text)
                new = re.sub(r"(?m)^#.*", lambda m: names(m[0], table), new)
            if new != text:
                with open(path, "w", encoding="utf-8") as f:
                    f.write(new)
                changed += 1
    print(f"respell: {changed} files below crates/")
    pages = ["README.md"] + [os.path.join(d, f) for d, _, fs in os.walk("docs") for f in sorted(fs) if f.endswith(".md")]
    changed = 0
    for path in pages:
        with open(path, encoding="utf-8") as f:
            text = f.read()
        new = SPAN.sub(lambda m: names(tokens(m[0], everywhere), everywhere), text)
        if new != text:
            with open(path, "w", encoding="utf-8") as f:
                f.write(new)
            changed += 1
    print(f"respell: {changed} pages")


main()
