#!/usr/bin/env python3
"""Spells the repository's definitions and lemmas as tools/respell.tsv says: in crates/, in the must-fail edits, and in the code spans of README.md and docs/.

usage: respell.py KIT, at the top of the repository, right after KIT/port/port.py. tools/respell_table.py wrote the table.
"""
import glob
import os
import re
import subprocess
import sys

HERE = os.path.dirname(os.path.realpath(__file__))
TABLE = os.path.join(HERE, "respell.tsv")
WORD = r"[^\s(){}.;,@\"«»]+"


def edits(rows):
    for p in sorted(glob.glob("crates/*/must-fail/*.edit")):
        with open(p, encoding="utf-8") as f:
            old = f.read()
        turned, antt = [], False
        for line in old.split("\n"):
            if line.startswith("file: "):
                antt = line.endswith(".antt")
            if line.startswith(("old: ", "new: ")) and (antt or re.search(r"(requires|ensures|ghost)\b", line)):
                line = re.sub(WORD, lambda m: rows.get(m[0], m[0]), line)
            turned.append(line)
        new = "\n".join(turned)
        if new != old:
            with open(p, "w", encoding="utf-8") as f:
                f.write(new)


def main(kit):
    snake = os.path.join(kit, "port", "notes", "2026-11-18-names-are-in-snake-case", "snake.py")
    with open(TABLE, encoding="utf-8") as f:
        rows = dict(line.rstrip("\n").split("\t") for line in f)
    for kinds, paths in (("antt,rt", ["crates"]), ("md", ["README.md", "docs"])):
        subprocess.run([sys.executable, snake, "--table", TABLE, "--only", kinds, *paths], check=True)
    edits(rows)


main(sys.argv[1])
