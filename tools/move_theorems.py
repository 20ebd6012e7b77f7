#!/usr/bin/env python3
"""Moves modules of theorems from a crate's specs/ to its proofs/, with what names them; statements stay as they are.

usage: tools/move_theorems.py CRATE MODULE..     at the top of the repository
"""

import os
import re
import subprocess
import sys

crate, modules = sys.argv[1], sys.argv[2:]
base = f"crates/{crate}"
os.makedirs(f"{base}/proofs", exist_ok=True)


def read(path):
    with open(path, encoding="utf-8") as f:
        return f.read()


def write(path, text):
    with open(path, "w", encoding="utf-8") as f:
        f.write(text)


lines = read(f"{base}/specs/Lib.antt").split("\n")
moved = [it for it in lines if it.removeprefix("pub ").removeprefix("mod ") in modules]
assert len(moved) == len(modules), (moved, modules)
write(f"{base}/specs/Lib.antt", "\n".join(it for it in lines if it not in moved))
lib = f"{base}/proofs/Lib.antt"
before = read(lib) if os.path.exists(lib) else ""
write(lib, before + ("" if not before or before.endswith("\n") else "\n") + "\n".join("pub mod " + it.split()[-1] for it in moved) + "\n")
for it in modules:
    assert not os.path.exists(f"{base}/proofs/{it}.antt"), it
    subprocess.run(["git", "mv", f"{base}/specs/{it}.antt", f"{base}/proofs/{it}.antt"], check=True)

path = re.compile(rf"Rattle\.{crate}\.specs\.({'|'.join(modules)})(?=[\s.])")
page = re.compile(rf"(?<![\w/])({crate}/)?specs/({'|'.join(modules)})(?![\w])")
for top in ("crates", "docs", "README.md"):
    for folder, dirs, files in os.walk(top) if os.path.isdir(top) else [("", [], [top])]:
        dirs[:] = [d for d in dirs if d != "out"]
        for f in files:
            p = os.path.join(folder, f)
            if not f.endswith((".antt", ".rt", ".md")) or p == "docs/PORT.md":
                continue
            text = read(p)
            new = path.sub(rf"Rattle.{crate}.proofs.\1", text)
            own = p.startswith(base + "/")
            new = page.sub(lambda m: f"{m[1] or ''}proofs/{m[2]}" if m[1] or own else m[0], new)
            if new != text:
                write(p, new)
