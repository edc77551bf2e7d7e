#!/usr/bin/env python3
"""Spells the repository's own definitions, fields, constructors and lemmas in snake case, as today's Rattle spells words.

usage: tools/respell.py [--list]

It goes over crates/ once, behind the kit's port.py: what a line of specs/ or proofs/ declares in lower camel case (`badField`)
is written in snake case (`bad_field`) wherever the word stands in an .rt, .antt or .edit file, comments too; strings are left.
A lemma that would then have the name of the definition that it speaks of gets `_lem` first (LEMMAS).
--list prints the names and writes nothing; what would still fall together is printed on standard error.
"""
import os
import re
import sys

WORD = re.compile(r"[A-Za-z_][A-Za-z0-9_?'₀-₉]*(?:-[A-Za-z0-9_?'₀-₉]+)*")
DECLARED = re.compile(r"^\s*(?:abbrev |unfoldable |pub |field |constructor |infix\w* \S+ )*([a-z][A-Za-z0-9_?'-]*)(?: \{[^}]*\})* :", re.M)
LEMMAS = "bad_kind cut_off form_in no_kind no_record no_room node_at of_one row_number size_in target_at".split()
# names that no line declares alone, and one that would have the name of a field beside it
OTHERS = {
    "oldRintcs": "old_rintcs",
    "oemTable": "oem_table",
    "oemRevision": "oem_number",
    "creatorRevision": "creator_number",
    "lentFor": "lent_for",
    "firstAlone": "first_alone_bytes",
}
LEMMA = re.compile(r"(?<![A-Za-z0-9_.?'-])(" + "|".join(LEMMAS) + r")(?![A-Za-z0-9_.?'-])")
CAMEL = re.compile(r"[a-z0-9][A-Z]")


def files():
    for folder, dirs, names in os.walk("crates"):
        dirs[:] = sorted(d for d in dirs if d != "out")
        for name in sorted(names):
            if name.endswith((".rt", ".antt", ".edit")):
                yield os.path.join(folder, name)


def snake(word):
    return re.sub(r"(?<=[a-z0-9])([A-Z])", lambda m: "_" + m.group(1).lower(), word)


def main():
    texts = {path: open(path, encoding="utf-8").read() for path in files()}
    written = dict(texts)
    for path, text in texts.items():
        if path.endswith(".antt"):
            texts[path] = LEMMA.sub(r"\1_lem", text)
    table = {}
    for path, text in texts.items():
        if path.endswith(".antt"):
            for name in DECLARED.findall(text):
                if CAMEL.search(name):
                    table[name] = snake(name)
    table.update(OTHERS)
    words = set()
    for text in texts.values():
        words.update(WORD.findall(text))
    clashes = sorted(old for old, new in table.items() if new in words)
    if clashes or len(set(table.values())) != len(table):
        print("fall together: " + ", ".join(f"{old} {table[old]}" for old in clashes), file=sys.stderr)
    if "--list" in sys.argv[1:]:
        print("\n".join(f"{old}\t{new}" for old, new in sorted(table.items())))
        return
    for path, text in texts.items():
        turned = "".join(
            piece if i % 2 else WORD.sub(lambda m: table.get(m.group(), m.group()), piece)
            for i, piece in enumerate(re.split(r'("(?:[^"\\\n]|\\.)*")', text))
        )
        if turned != written[path]:
            with open(path, "w", encoding="utf-8") as f:
                f.write(turned)


if __name__ == "__main__":
    main()
