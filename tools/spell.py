#!/usr/bin/env python3
"""Brings the repository's own names to the toolchain's spelling, behind its own script, which leaves them: words are in snake case.

usage: python3 tools/spell.py        at the top of the repository, once

A word that begins with a small letter and has a capital inside becomes a word in snake case, wherever it stands in sources, definitions,
proofs, must-fail edits, README and docs; so do the definitions that have a dash. Lemmas keep their dashes, which join names. Words of
the toolchain, hexadecimal numbers and what the host's languages call theirs stay.
"""

import glob
import os
import re

TOKEN = re.compile(r"(?<![A-Za-z0-9_'])[A-Za-z_][A-Za-z0-9_'₀-₉-]*")
CAMEL = re.compile(r"^[a-z][a-z0-9_'-]*[A-Z]")
KITS = re.compile(
    r"^x[0-9A-F]+$|^(all_Typed|bool_Lawful|bool_Makes|bool_Tells|is_Within|mut_Lawful|mut_Tells|mut_slice_Fixes|mut_slice_Lawful"
    r"|mut_slice_Tells|shr_slice_Lawful|shr_slice_Tells|uint_Lawful|uint_Makes|uint_Tells|walk_Meets)$"
)
# names that would fall together with another, or whose old word is the toolchain's
OTHERWISE = {"toldOf": "told_with", "getD-enumerated": "get_or-enumerated"}


def snake(word):
    return re.sub(r"([a-z0-9'₀-₉])([A-Z]+)(?=[^A-Z]|$)", lambda m: m.group(1) + "_" + m.group(2).lower(), word)


def crates(*endings):
    for folder, dirs, files in os.walk("crates"):
        dirs[:] = sorted(d for d in dirs if d != "out")
        for f in sorted(files):
            if f.endswith(endings):
                yield os.path.join(folder, f)


def read(path):
    with open(path, encoding="utf-8") as f:
        return f.read()


def names():
    """Every name that changes, with what it becomes."""
    to = {}
    for path in crates(".antt", ".rt"):
        text = read(path)
        for word in TOKEN.findall(text):
            if CAMEL.match(word) and not KITS.match(word):
                to[word] = OTHERWISE.get(word, snake(word))
        if "/specs/" in path:
            for word in re.findall(r"(?m)^(?:abbrev|unfoldable) (?:pub )?([a-z][a-z0-9_'-]*-[a-z0-9_'-]*) *:", text):
                to[word] = snake(word).replace("-", "_")
    return to


def main():
    to = names()
    docs = ["README.md"] + glob.glob("docs/*.md") + glob.glob("docs/notes/*.md")
    for path in [*crates(".antt", ".rt", ".edit"), *docs]:
        old = read(path)
        new = TOKEN.sub(lambda m: to.get(m.group(0), m.group(0)), old)
        if new != old:
            with open(path, "w", encoding="utf-8") as f:
                f.write(new)
    print(f"{len(to)} names")


if __name__ == "__main__":
    main()
