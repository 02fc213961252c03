#!/usr/bin/env python3
"""Brings the repository's own definitions and lemmas to the spelling of today's Rattle: words in snake case.

usage: port_names.py FOLDER      once, in a checkout in which the kit's port.py has run

Every word that begins in lower case and has a capital behind it is a definition, a lemma, a field or a variable of specs/ and proofs/: `setOf` becomes
`set_of`. A part of a name between dashes is turned by itself, and types, modules and everything of src/ but clauses have no such words. A lemma that would
then have its definition's name gets `_lem`.
"""
import glob
import os
import re
import sys

CAMEL = re.compile(r"(?<![\w'])[a-z][a-z0-9']*[A-Z][\w']*")

# a lemma, and the files in which it stands or is cited: in each it would fall together with the definition of that name
LEMMAS = [
    ("all_small", r"(automaton/proofs/Counting|decision_theory/proofs/Automaton)\.antt$"),
    ("apart_from", r"decision_theory/proofs/Needed\.antt$"),
    ("count_word", r"(k_tuples|k_joins)/proofs/.*\.antt$"),
    ("in_group", r"(abnf_rules/proofs/(MachineLaws|machine/in_group/Proof)|abnf_grammar/proofs/\w+|abnf/proofs/\w+)\.antt$"),
    ("same_row", r"decision_theory/proofs/Marking\.antt$"),
    ("set_told", r"(k_tuples|k_joins)/proofs/.*\.antt$"),
]


def snake(word):
    word = re.sub(r"([A-Z])([A-Z][a-z])", r"\1_\2", word)
    return re.sub(r"(?<=[a-z0-9'])([A-Z])", lambda m: "_" + m.group(1), word).lower()


def turn(path, text):
    for lemma, where in LEMMAS:
        if re.search(where, path):
            text = re.sub(r"(?<![\w'.-])" + lemma + r"(?![\w'.-])", lemma + "_lem", text)
    # the library's lemma `take_all` stands beside the repository's definition in one file
    if path.endswith("follow/proofs/Passes.antt"):
        text = re.sub(r"(?<![\w'.-])take_all(?![\w'.-])", "take_whole", text).replace("take_whole}", "take_all as take_whole}", 1)
    return CAMEL.sub(lambda m: snake(m.group(0)), text)


def main(root):
    n = 0
    for path in sorted(glob.glob(os.path.join(root, "crates/**/*"), recursive=True)):
        if "/out/" in path or not path.endswith((".rt", ".antt", ".edit")):
            continue
        with open(path, encoding="utf-8") as f:
            text = f.read()
        new = turn(path, text)
        if new != text:
            with open(path, "w", encoding="utf-8") as f:
                f.write(new)
            n += 1
    print(f"port_names: {n} files changed")


if __name__ == "__main__":
    main(sys.argv[1] if len(sys.argv) == 2 else sys.exit(__doc__))
