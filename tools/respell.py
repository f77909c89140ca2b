#!/usr/bin/env python3
"""Turns the names of this repository's definitions and lemmas from camel case to snake case, as today's Rattle spells words.

usage: python3 tools/respell.py        at the top of the repository, once, right after /opt/rattle/port/port.py

A name is turned wherever it stands in a .rt, .antt or .edit file below crates/: 'quotientOver' to 'quotient_over', 'eq-eqZ' to 'eq-eq_z'.
Types and facts, which begin with a capital letter, stay as they are, and so does Rust's code, which has no camel case but in types. It prints each
name that falls together with another of the same spelling.
"""
import collections
import os
import re
import sys

HUMP = re.compile(r"(?<=[a-z0-9])([A-Z])")
# A name: letters, digits, '_', and dashes or apostrophes inside. Names behind a capital letter are types.
NAME = re.compile(r"(?<![\w'·-])[a-z][\w-]*'*")
# Words of the kit, which an edit's text still has in their older spelling.
KIT_WORDS = {"getD": "get_or", "natAbs": "nat_abs"}
# Lemmas whose name would fall together with that of a definition.
LEMMAS = ["all_blocks", "block_in", "by_number", "code_lines", "no_code", "read_at", "same_code", "written_count"]


def snake(name):
    if name in KIT_WORDS:
        return KIT_WORDS[name]
    parts = name.split("-")
    turned = [HUMP.sub(lambda m: "_" + m.group(1).lower(), p) if re.match(r"[a-z]", p) and HUMP.search(p) else p for p in parts]
    return "-".join(turned)


def files(top):
    for folder, folders, names in os.walk(os.path.join(top, "crates")):
        folders[:] = sorted(f for f in folders if f != "out")
        for name in sorted(names):
            if name.endswith((".rt", ".antt", ".edit")):
                yield os.path.join(folder, name)


def main():
    top = os.getcwd()
    texts = {p: open(p, encoding="utf-8").read() for p in files(top)}
    stands = collections.defaultdict(set)
    for path, text in texts.items():
        if path.endswith(".antt"):
            for m in re.finditer(r"^\s*(?:abbrev |unfoldable )?(?:pub )?([^\s:(){}]+) :(?: |$)", text, re.M):
                stands[m.group(1)].add(path)
    together = collections.defaultdict(set)
    for name in stands:
        together[snake(name)].add(name)
    for name, olds in sorted(together.items()):
        if len(olds) > 1 and name not in LEMMAS:
            print("falls together:", name, {o: sorted(os.path.relpath(p, top) for p in stands[o])[:4] for o in sorted(olds)})
    changed = 0
    for path, text in texts.items():
        turned = text
        if path.endswith(".antt"):
            for lemma in LEMMAS:
                turned = re.sub(rf"(?<![\w'.-]){lemma}(?![\w'-])", lemma + "_lem", turned)
        turned = NAME.sub(lambda m: snake(m.group(0)), turned)
        if turned != text:
            changed += 1
            with open(path, "w", encoding="utf-8") as f:
                f.write(turned)
    print(f"{changed} files changed")


if __name__ == "__main__":
    sys.exit(main())
