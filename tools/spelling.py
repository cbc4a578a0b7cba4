#!/usr/bin/env python3
"""Brings the repository's own definitions and lemmas to the spelling of the toolchain's guide: words in snake case.

usage: tools/spelling.py [--map] FILE..    rewrites the files; --map prints old and new names and rewrites nothing

The crate slab is slabs, since the toolchain has a library of that name.

A word in camel case that begins with a small letter becomes snake case, part by part between dashes, as answerNumber ->
answer_number and byteOf-lt -> byte_of-lt. In .rt files only ghost lines and clauses have such words. Types, modules and
what the toolchain's own library spells with capitals behind an underscore stay. NAMES has the names that would fall
together with a field, or that follow the library's new names. The table's rows W1 to W14 are fields, w1 to w14, in .antt
files alone: programs print W1.
"""

import re
import sys

NAMES = {
    # fields of rank_plan's Plan have the plain names
    "leftA": "left_matrix_a",
    "leftB": "left_matrix_b",
    "rightA": "right_matrix_a",
    "rightB": "right_matrix_b",
    # getD is get_or in the toolchain's library
    "getD-block": "get_or-block",
    "getD-listOf": "get_or-list_of",
}

# Local lemmas of one file that would fall together with a definition.
LOCAL = {
    "card/proofs/Calls.antt": ("read_answer", "is-read_answer"),
    "theorems/proofs/AgreeCalls.antt": ("sum_over", "sum-sum_over"),
}

WORD = re.compile(r"(?<![\w\\'-])[a-z][a-z0-9]*(?:[A-Za-z0-9']|-(?=[A-Za-z0-9]))*")
ROW = re.compile(r"(?<![\w'-])W(?=\d)")
CRATE = re.compile(r"(?<=Rattle\.)slab(?=\.)|(?<![\w./])slab(?=::)")
HUMP = re.compile(r"(?<=[a-z0-9])([A-Z])")


def spell(word):
    if word in NAMES:
        return NAMES[word]
    parts = []
    for part in word.split("-"):
        if re.match(r"[a-z][a-z0-9']*[A-Z]", part):
            part = HUMP.sub(lambda m: "_" + m.group(1).lower(), part)
            part = re.sub(r"([A-Z])", lambda m: m.group(1).lower(), part)
        parts.append(part)
    return "-".join(parts)


def turn(text, seen, rows):
    def one(m):
        new = spell(m.group(0))
        if new != m.group(0):
            seen[m.group(0)] = new
        return new

    text = CRATE.sub("slabs", text)
    if rows:
        text = ROW.sub("w", text)
    return WORD.sub(one, text)


def main():
    args = sys.argv[1:]
    listing = "--map" in args
    seen = {}
    for path in [a for a in args if a != "--map"]:
        with open(path, encoding="utf-8") as f:
            old = f.read()
        local = [names for end, names in LOCAL.items() if path.endswith(end)]
        for was, name in local:
            old = re.sub(r"(?<![\w'-])%s(?![\w'-])" % was, name, old)
        new = turn(old, seen, path.endswith(".antt"))
        if new != old and not listing:
            with open(path, "w", encoding="utf-8") as f:
                f.write(new)
    if listing:
        for old, new in sorted(seen.items()):
            print(old, new)


if __name__ == "__main__":
    main()
