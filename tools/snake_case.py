#!/usr/bin/env python3
"""Brings this repository's definitions and lemmas to snake case: nextNode to next_node, bigEndian-byte to big_endian-byte.

Run once, after port.py, at the top of the repository. Types, modules and facts keep upper camel case; strings, exported C names and the
functions of src/ are snake case already and stay. Where a lemma would then have the name of its definition, the lemma gets `_lem`.
Must-fail edits, and names between backquotes in the documents, follow.
"""
import glob
import re

# A lemma that would have its definition's name: where it stands or is cited, and its name there.
LEMMAS = [
    ("crates/decimal/proofs/ReadLaws.antt", "goes_on"),
    ("crates/decimal/proofs/reading/push/Proof.antt", "goes_on"),
    ("crates/decimal/proofs/reading/read_numbers/Proof.antt", "goes_on"),
    ("crates/demands/proofs/Units.antt", "all_left"),
    ("crates/demands/proofs/Serving.antt", "not_named"),
    ("crates/checkpoint_theory/proofs/Resuming.antt", "store_in"),
    ("crates/document_table/proofs/Checked.antt", "last_leaf"),
    ("crates/run_record/proofs/NumbersLaws.antt", "numbers_of"),
    ("crates/tree/proofs/Order.antt", "below_root"),
    ("crates/tree/proofs/Parents.antt", "below_root"),
]

# A name of std that is spelled so.
KEEP = {"toLeft", "toRight"}
OTHER = {"getD": "get_or"}

WORD = re.compile(r"[A-Za-z_][A-Za-z0-9_]*")
CAMEL = re.compile(r"_*[a-z][a-z0-9]*(?:_?[A-Za-z0-9]+)*$")
STRING = re.compile(r'b?"(?:[^"\\]|\\.)*"|\'(?:[^\'\\]|\\.)\'')


def snake(word):
    if word in KEEP or not CAMEL.match(word) or not re.search(r"[a-z0-9][A-Z]", word):
        return word
    return OTHER.get(word, re.sub(r"(?<=[a-z0-9])(?=[A-Z])", "_", word).lower())


def words(text):
    return WORD.sub(lambda m: snake(m.group(0)), text)


def outside_strings(text):
    parts, at = [], 0
    for m in STRING.finditer(text):
        parts += [words(text[at : m.start()]), m.group(0)]
        at = m.end()
    return "".join(parts + [words(text[at:])])


def rewrite(path, turn):
    with open(path, encoding="utf-8") as f:
        old = f.read()
    new = turn(old)
    if new != old:
        with open(path, "w", encoding="utf-8") as f:
            f.write(new)


def main():
    for path, name in LEMMAS:
        whole = re.compile(r"(?<![A-Za-z0-9_.-])" + name + r"(?![A-Za-z0-9_-])")
        rewrite(path, lambda text: whole.sub(name + "_lem", text))
    for path in glob.glob("crates/*/specs/**/*.antt", recursive=True) + glob.glob("crates/*/proofs/**/*.antt", recursive=True):
        rewrite(path, words)
    for path in glob.glob("crates/*/src/**/*.rt", recursive=True):
        rewrite(path, outside_strings)
    for path in glob.glob("crates/*/must-fail/*.edit"):
        rewrite(path, outside_strings)
    for path in ["README.md", "CONTRIBUTING.md"] + glob.glob("docs/*.md") + glob.glob("docs/changes/*.md"):
        rewrite(path, lambda text: re.sub(r"`[^`\n]*`", lambda m: words(m.group(0)), text))


main()
