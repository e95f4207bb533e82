#!/usr/bin/env python3
"""Respells this repository's own definitions, lemmas and fields to today's spelling, once: words with underscores, types in camel case.

usage: tools/respell.py [--check]     at the top of the repository, after port.py

    counter-answer  ->  counter_answer          Same-read  ->  SameRead

It turns the names that a file of specs/ or proofs/ defines (the answers and invariants of functions aside: their names are Rattle's), in every
.antt file, in the clauses, ghost items and comments of .rt files, and in must-fail edits. Names of std, of Rattle's own making and of src/ stay.
A name that would fall together with another gets one of its own, in OTHER. A second run changes nothing."""

import glob
import os
import re
import sys

# Names that would fall together with a function, a module or a word of std.
OTHER = {
    "bit-or": "bit_of_or",
    "bit-and": "bit_of_and",
    "wire-list": "wire_list_text",
    "wire-line": "wire_line_text",
    "first-command": "command_at_front",
    "rules-read": "read_by_rules",
    "rules-emit": "emitted_by_rules",
}
MADE = ("Answers.antt", "Invariants.antt", "Choices.antt", "Proof.antt")
WORD = r"[^\s(){}.;,@\"«»\[\]`:]+"
DEFINED = re.compile(r"^ *(?:pub |abbrev |record |data |mutual )*(" + WORD + r")(?: [^\n:]*)? : ", re.M)
TOKEN = re.compile(WORD)


def respelled(name):
    if name in OTHER:
        return OTHER[name]
    if name[0].isupper():
        return "".join(w[0].upper() + w[1:] for w in name.split("-"))
    return name.replace("-", "_")


def files(*ends):
    for top in ("specs", "proofs", "src", "must-fail"):
        for path in sorted(glob.glob(f"crates/*/{top}/**/*", recursive=True)):
            if path.endswith(ends) and os.path.isfile(path):
                yield path


def read(path):
    with open(path, encoding="utf-8") as f:
        return f.read()


def main():
    table, every = {}, set()
    for path in files(".antt", ".rt"):
        text = read(path)
        every.update(TOKEN.findall(text))
        if path.endswith(".antt") and os.path.basename(path) not in MADE:
            for name in DEFINED.findall(text):
                if re.fullmatch(r"[A-Za-z]\S*-\S*", name):
                    table[name] = respelled(name)
    if "--check" in sys.argv:
        sources = "\n".join(read(path) for path in files(".rt"))
        items = set(re.findall(r"\b(?:fn|mod|const|struct|enum|trait) (\w+)", sources))
        back = {}
        for name, new in sorted(table.items()):
            if new in every:
                print("falls together:", name, new)
            if new in items or new.lower() in {i.lower() for i in items}:
                print("an item of src/:", name, new)
            if new in back:
                print("both:", name, back[new], new)
            back[new] = name
        return
    for path in files(".antt", ".rt", ".edit"):
        text = read(path)
        new = TOKEN.sub(lambda m: table.get(m[0], m[0]), text)
        if new != text:
            with open(path, "w", encoding="utf-8") as f:
                f.write(new)
            print(path)


if __name__ == "__main__":
    main()
