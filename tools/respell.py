#!/usr/bin/env python3
"""Brings the repository's own definitions and lemmas to the spelling of today's Rattle, after port.py.

usage: python3 tools/respell.py [FOLDER]

A name in camel case that begins with a small letter is turned into snake case, part by part between dashes:
`fieldBits` is `field_bits`, `chromaSyntax-law` is `chroma_syntax-law`. Where a lemma then has the name of
the definition that it speaks of, it ends in `_lem`. Files of specs/, proofs/, src/ (strings apart), the must-fail
edits and the documents are turned; functions, exported names, strings, inputs and outputs keep theirs.
"""

import os
import re
import sys

PART = re.compile(r"(?<![\w'])[A-Za-z_][\w'₀-₉]*")
HUMP = re.compile(r"(?<=[a-z0-9_])([A-Z])")
STRING = re.compile(r'b?"(?:[^"\\]|\\.)*"|b?\'(?:[^\'\\]|\\.)\'')

# Lemmas that fall together with a definition: the file, the name there, and the new one. A name after a dot is a step or a field.
TOGETHER = [
    ("crates/aps/proofs/KeepLaws.antt", "last_ok", "last_ok_lem"),
    ("crates/aps/proofs/RbspLaws.antt", "most_bytes", "most_bytes_lem"),
    ("crates/aps_table/proofs/CutLaws.antt", "read_back", "read_back_lem"),
    ("crates/aps_table/proofs/Demand3.antt", "read_back", "read_back_lem"),
    ("crates/aps_table/proofs/ListSteps.antt", "place_at", "place_at_lem"),
    ("crates/aps_table/proofs/list/put_place/Proof.antt", "place_at", "place_at_lem"),
]


def is_camel(name):
    return name[0].islower() and any(c in "ABCDEFGHIJKLMNOPQRSTUVWXYZ" for c in name)


def snake(name):
    return HUMP.sub(lambda m: ("" if name[m.start() - 1] == "_" else "_") + m.group(1).lower(), name)


def own_names(root):
    """The parts in camel case that files of specs/ and proofs/ have."""
    names = set()
    for path in files(root, (".antt",)):
        text = re.sub(r"--.*", "", open(path, encoding="utf-8").read())
        names |= {w for w in PART.findall(text) if is_camel(w)}
    return names


def files(root, endings):
    for top, dirs, found in os.walk(root):
        dirs[:] = sorted(d for d in dirs if d not in (".git", "out", "target"))
        for f in sorted(found):
            if f.endswith(endings):
                yield os.path.join(top, f)


def turned(text, names):
    return PART.sub(lambda m: snake(m.group(0)) if m.group(0) in names else m.group(0), text)


def outside_strings(text, names):
    parts, at = [], 0
    for m in STRING.finditer(text):
        parts += [turned(text[at : m.start()], names), m.group(0)]
        at = m.end()
    return "".join(parts) + turned(text[at:], names)


def write(path, old, new):
    if new != old:
        with open(path, "w", encoding="utf-8") as f:
            f.write(new)


def main(root):
    names = own_names(os.path.join(root, "crates"))
    for path, old, new in TOGETHER:
        path = os.path.join(root, path)
        if os.path.exists(path) and names:
            text = open(path, encoding="utf-8").read()
            write(path, text, re.sub(r"(?<![\w.'-])" + re.escape(old) + r"(?![\w'-])(?!\.)", new, text))
    for path in files(os.path.join(root, "crates"), (".antt",)):
        text = open(path, encoding="utf-8").read()
        write(path, text, turned(text, names))
    # Edits and documents also have names that port.py turned: those whose new form stands in specs/ or proofs/.
    stands = {w for path in files(os.path.join(root, "crates"), (".antt",)) for w in PART.findall(open(path, encoding="utf-8").read())}
    for path in files(os.path.join(root, "crates"), (".rt",)):
        text = open(path, encoding="utf-8").read()
        write(path, text, outside_strings(text, names))
    for path in [*files(os.path.join(root, "crates"), (".edit",)), *files(os.path.join(root, "compare", "edits"), (".edit",)), *files(os.path.join(root, "docs"), (".md",)), os.path.join(root, "README.md"), os.path.join(root, "compare", "README.md")]:
        if os.path.exists(path) and os.path.basename(path) not in ("PORT.md", "PORTING-LEFT.md"):
            text = open(path, encoding="utf-8").read()
            write(path, text, turned(text, names | {w for w in PART.findall(text) if is_camel(w) and snake(w) in stands}))


main(sys.argv[1] if len(sys.argv) > 1 else ".")
