#!/usr/bin/env python3
"""Spells this repository's own definitions and lemmas as Rattle's library spells its own: words in snake case, types and modules in camel case.

usage: tools/respell.py     at the top of the checkout, once, after the kit's port.py

Every name of specs/ and proofs/ in lower camel case, as one of two words, is written with an underscore wherever it stands:
in the definitions, laws, contracts, edits that must fail, documents and tools. Nothing else is touched: functions of src/ are in snake case
as they are, and strings and data hold no such name. A lemma that would fall together with a definition keeps its own name.
"""
import glob
import os
import re

CAMEL = re.compile(r"^[a-z](.*[a-z0-9])?[A-Z]")
WORD = re.compile(r"[A-Za-z_][A-Za-z0-9_'-]*")
# the tail of a number in base 16, a unit, and the RFC's word for a range of octets
NONE = re.compile(r"^(x[0-9A-F_]+|dB|xLOW|HIGH)$")
# a lemma whose name, as port.py leaves it, would fall together with a definition's: the definition, its crate and the lemma's own name
FALLS_TOGETHER = {"size_in": ("sizeIn", "merging", "size-in")}
# the library's own word in a lemma's name
WORDS = {"getD": "get_or"}


def files(*patterns):
    for pattern in patterns:
        yield from sorted(p for p in glob.glob(pattern, recursive=True) if os.path.isfile(p) and "/out/" not in p)


def part_of(name):
    name = WORDS.get(name, name)
    if NONE.match(name) or not CAMEL.match(name):
        return name
    return re.sub(r"(?<=[a-z0-9])[A-Z]", lambda m: "_" + m.group(0).lower(), name)


def snake(name):
    return "-".join(part_of(part) for part in name.split("-"))


def spellings():
    """What becomes of each name in lower camel case, and every word of specs/ and proofs/ as they are to be."""
    table, words = {}, set()
    for path in files("crates/*/specs/**/*.antt", "crates/*/proofs/**/*.antt"):
        for name in WORD.findall(open(path, encoding="utf-8").read()):
            words.add(snake(name))
            if snake(name) != name:
                table[name] = snake(name)
    return table, words


def main():
    table, words = spellings()
    assert len(set(table.values())) == len(table), "two names fall together"

    def word(found):
        # port.py has respelled some names in the sources alone: papers and edits still have the old spelling of them
        name = found.group(0)
        return table.get(name) or (snake(name) if snake(name) in words else name)

    for name, (definition, crate, own) in FALLS_TOGETHER.items():
        laws = list(files(f"crates/{crate}/proofs/*.antt", f"crates/{crate}/must-fail*/*.edit"))
        if not any(definition in open(path, encoding="utf-8").read() for path in laws):
            continue
        for path in laws:
            old = open(path, encoding="utf-8").read()
            new = re.sub(rf"(?<![\w.'-]){name}(?![\w'-])", own, old)
            if new != old:
                open(path, "w", encoding="utf-8").write(new)
    sources = ("crates/*/specs/**/*.antt", "crates/*/proofs/**/*.antt", "crates/*/src/**/*.rt", "crates/*/must-fail*/*.edit")
    papers = ("docs/**/*.md", "*.md", "compare/README.md", "compare/faults/*.edit", "tools/*", "examples/README.md")
    for path in files(*sources, *papers):
        if os.path.samefile(path, __file__):
            continue
        try:
            old = open(path, encoding="utf-8").read()
        except UnicodeDecodeError:
            continue
        new = WORD.sub(word, old)
        if new != old:
            open(path, "w", encoding="utf-8").write(new)


if __name__ == "__main__":
    main()
