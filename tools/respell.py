#!/usr/bin/env python3
"""Brings definitions and lemmas to today's spelling, by the table tools/respell.tsv (old name, tab, new name).

usage: tools/respell.py [FOLDER]

It turns whole names in the files of specs/ and proofs/, in the clauses and imports of src/, and in must-fail edits. A name of the
source has neither a capital within a word nor a dash, so none of the source's names turns. A row whose old name has neither is a
lemma that would have had the name of a definition: it turns only in the files named in LEMMAS. It is run once, right after port.py.
"""
import os
import re
import sys

HERE = os.path.dirname(os.path.realpath(__file__))
LEMMAS = {
    "block_words": ["model"],
    "kept_word": ["aliasing/proofs/Pending.antt"],
    "left_alone": ["model/proofs/Isolation.antt"],
    "no_record": ["aliasing/proofs"],
    "node_at": ["building/proofs/Graphs.antt"],
    "one_more": ["reading/proofs", "summary/proofs", "inference/proofs"],
    "one_place": ["model/proofs/LoadAccepted.antt"],
    "operands_of": ["building/proofs/Storing.antt"],
    "place_is": ["summary/proofs/Turns.antt", "renders/proofs/Origins.antt"],
    "range_at": ["model/proofs", "inference/proofs"],
}
WORD = re.compile(r"[^\s(){}.;,@\"«»\[\]|:⌜⌝`]+")

with open(os.path.join(HERE, "respell.tsv"), encoding="utf-8") as f:
    table = dict(line.rstrip("\n").split("\t") for line in f if line.strip())


def turn(path, below):
    with open(path, encoding="utf-8") as f:
        text = f.read()

    def one(found):
        word = found[0]
        if word in LEMMAS and not any(below.startswith(place) for place in LEMMAS[word]):
            return word
        return table.get(word, word)

    new = WORD.sub(one, text)
    if new != text:
        with open(path, "w", encoding="utf-8") as f:
            f.write(new)
    return new != text


def main():
    root = os.path.join(sys.argv[1] if len(sys.argv) > 1 else os.path.dirname(HERE), "crates")
    turned = 0
    for folder, dirs, files in os.walk(root):
        dirs[:] = [d for d in dirs if d != "out"]
        for name in files:
            path = os.path.join(folder, name)
            if name.endswith((".antt", ".rt", ".edit")):
                turned += turn(path, os.path.relpath(path, root))
    print(f"{turned} files turned")


if __name__ == "__main__":
    main()
