#!/usr/bin/env python3
"""Writes tools/respell.tsv: each definition and lemma of this repository whose name is not in today's spelling, with the name in that spelling.

A word in camel case gets underscores. A dash stays where it joins two names or follows a type; a plain word hangs on by an underscore. A function
into Type is spelled as a type. A name that the library has too stays. Names that fall together stop the script.
usage: respell_table.py KIT, at the top of the repository
"""
import os
import re
import sys

WORD = r"[^\s(){}.;,@\"«»]+"
DECLARED = re.compile(rf"^ *(?:abbrev |pub |private |opaque |data |record |theorem |instance |module |unfolding |unfoldable )*({WORD}(?: {WORD})*?)(?: \{{[^{{}}\n]*\}}| \([^()\n]*\))* :(?= |$)(.*)", re.M)
ABBREV = re.compile(rf"^ *(?:pub )?(?:abbrev |data |record |unfoldable |opaque )+(?:pub )?({WORD})", re.M)
# Parameters.
PARAMETERS = {"usedRows": "used_rows", "usedCols": "used_cols", "rowsAlike": "rows_alike", "colsAlike": "cols_alike"}
# The library has these names, and not these lemmas.
MOVED = {"two_bytes": "two_bytes_lem", "four_bytes": "four_bytes_lem"}


def texts(top, kinds=(".antt",)):
    for folder, dirs, files in os.walk(top):
        dirs[:] = sorted(d for d in dirs if d not in ("out", ".git"))
        for f in sorted(files):
            if f.endswith(kinds):
                p = os.path.join(folder, f)
                with open(p, encoding="utf-8") as h:
                    yield p, h.read()


def is_lemma_file(p):
    """A file of specs/ or a lemma file right in proofs/."""
    steps = p.split(os.sep)
    return "specs" in steps or steps[-2] == "proofs"


def without_comments(t):
    return re.sub(r"(?m)(^|\s)--.*$", r"\1", t)


def camel_parts(word):
    """`maxDim` as `max_dim`; a word that begins with a capital stays."""
    word = {"getD": "get_or"}.get(word, word)
    if not word or not word[0].islower():
        return word
    return re.sub(r"(?<=[a-z0-9₀-₉])([A-Z])", lambda m: "_" + m[1].lower(), word)


def main(kit):
    library, libwords = set(), set()
    for _, t in texts(os.path.join(kit, "rattle", "std")):
        t = without_comments(t)
        library |= set(re.findall(WORD, t))
        libwords |= {x for m in DECLARED.finditer(t) for x in m[1].split() if "-" not in x}
    for sub in ("antt", "logic", "core"):
        for _, t in texts(os.path.join(kit, "rattle", sub)):
            library |= set(re.findall(WORD, without_comments(t)))
    declared, words, types, used, lemma_texts = {}, set(), set(), set(), {}
    for p, t in texts("crates"):
        t = without_comments(t)
        used |= set(re.findall(WORD, t))
        if not is_lemma_file(p):
            continue
        lemma_texts[p] = set(re.findall(WORD, t))
        words |= {m[1] for m in ABBREV.finditer(t)}
        for m in DECLARED.finditer(t):
            for name in m[1].split():
                declared.setdefault(name, p)
            head = m[1].split()[0]
            if re.search(r"abbrev|data|record", m[0]) and re.search(r"(→|:|^) *Type(?: 0| \(ls 0\))? *$", m[2].rstrip()):
                types.add(head)
    names = words | libwords
    table = []
    for name in sorted(declared):
        if name in MOVED:
            table.append((name, MOVED[name]))
            continue
        if "◌" in name or name in library and name not in words:
            continue
        parts = [camel_parts(x) for x in name.replace("′", "'").split("-")]
        if name in types and name[0].islower():
            new = "".join(x[:1].upper() + re.sub("_(.)", lambda m: m[1].upper(), x[1:]) for x in parts)
        elif name in words:
            new = "_".join(parts)
        else:
            new = parts[0]
            olds = name.replace("′", "'").split("-")
            for left, right, shown in zip(olds, olds[1:], parts[1:]):
                both = (left in names or left[:1].isupper() or not left.isascii()) and (right in names or right[:1].isupper() or not right.isascii())
                head_type = left[:1].isupper() and left == olds[0] and len(left) > 1
                new += ("-" if both or head_type or not left or not right else "_") + shown
        table.append((name, new))
    by_word = {new: old for old, new in table if old in words}
    final, owners = {}, {}
    for old, new in table:
        if old not in words and new in by_word:
            print("a lemma with its function's name:", old, "->", new + "_lem")
            new += "_lem"
        final[old] = new
        owners.setdefault(new, []).append(old)
    for new, olds in sorted(owners.items()):
        if len(olds) > 1:
            raise SystemExit(f"fall together: {new}: {olds}")
    for old, new in final.items():
        if old != new and new not in final:
            shared = [p for p, t in lemma_texts.items() if old in t and new in t]
            if shared:
                print("look:", old, "->", new, "a name of something else in", *shared)
    final |= PARAMETERS
    by_new = {n: [o] for o, n in final.items() if o != n}
    with open("tools/respell.tsv", "w", encoding="utf-8") as h:
        for old, new in sorted((o, n) for n, olds in by_new.items() for o in olds):
            h.write(f"{old}\t{new}\n")
    print(len(table), "names")


main(sys.argv[1])
