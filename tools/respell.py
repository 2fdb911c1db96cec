#!/usr/bin/env python3
"""Brings the names of our own definitions and lemmas to today's spelling: words in snake case.

Run once at the top of a checkout, after /opt/rattle/port/port.py. A camel-case word, also one between dashes, turns
into snake case (`limitOf` to `limit_of`, `length-rowsOf` to `length-rows_of`) in specs/, proofs/, must-fail edits and
src/ outside of string literals, and in the pages that cite the names. Functions of src/ are in snake case already.

Where a definition's new name is a lemma's or a field's already, and one file has both, the lemma or the field takes
another name first: APART.
"""
import glob
import re
import sys

# Per file pattern: names that have to make way, before anything else. Each is one word, between no letters or dashes.
# A name behind one of PATHS is a function's of src/ and stays.
APART = {
    "same_key": "same_key_lem",
    "same_kind": "same_kind_lem",
    "same_row": "same_row_lem",
    "same_item": "same_item_lem",
    "is_digit": "is_digit_lem",
    "is_known": "is_known_lem",
    "is_leaf": "is_leaf_lem",
    "char_of": "char_of_lem",
    "first_char": "first_char_is",
    "has_room": "has_room_lem",
    "kept_by": "kept_by_lem",
    "no_digit": "no_digit_lem",
    "no_fields": "no_fields_lem",
    "one_field": "one_field_lem",
    "too_few": "too_few_lem",
    "too_short": "too_short_lem",
    "in_order": "in_order_is",
    "whole_by": "whole_by_lem",
}
# Words whose new name std has already.
OTHER = {"takeAt": "leaf_take_at"}

WORD = r"[^\s(){}.,;:\"`⌜⌝\[\]|&=<>+*/!?#@%$^~\\]+"
CAMEL = re.compile(r"^[a-z][a-z0-9_']*[A-Z]")


def snake(word):
    if word in OTHER:
        return OTHER[word]
    word = re.sub(r"([a-z0-9'])([A-Z])", r"\1_\2", word)
    return re.sub(r"([A-Z])([A-Z][a-z])", r"\1_\2", word).lower()


def respell(word, known=None):
    parts = word.split("-")
    return "-".join(snake(p) if CAMEL.match(p) and (known is None or p in known) else p for p in parts)


def apart(text):
    """Renames the lemmas of APART; a function's folder, goal or answer of that name stays."""
    for old, new in APART.items():
        text = re.sub(r"(?<![A-Za-z0-9_'.:\-])%s(?![A-Za-z0-9_'\-]|\.ensures|\.[A-Z])" % old, new, text)
        if old in ("first_char", "in_order"):
            text = re.sub(r"(?<=[a-z]\.)%s(?![A-Za-z0-9_'\-]|\.ensures|\.[A-Z])" % old, new, text)
    return text


def words(text):
    return re.sub(WORD, lambda m: respell(m.group(0)), text)


def source(text):
    """Respells a file of src/: what stands between quotes is left."""
    return "".join(p if p.startswith('"') else words(p) for p in re.split(r'("(?:\\.|[^"\\\n])*")', text))


def main():
    antt = glob.glob("crates/*/specs/**/*.antt", recursive=True) + glob.glob("crates/*/proofs/**/*.antt", recursive=True)
    known, turned = set(), 0
    texts = {f: open(f).read() for f in antt}
    for t in texts.values():
        known |= {p for w in re.findall(WORD, t) for p in w.split("-") if CAMEL.match(p)}
    for f, t in texts.items():
        new = words(apart(t))
        if new != t:
            open(f, "w").write(new)
            turned += 1
    for f in glob.glob("crates/*/src/**/*.rt", recursive=True):
        t = open(f).read()
        new = source(t)
        if new != t:
            open(f, "w").write(new)
            turned += 1
    for f in glob.glob("crates/*/must-fail/*.edit"):
        t = open(f).read()
        new = source(t) if re.search(r"^file: src/", t, re.M) else words(apart(t))
        if new != t:
            open(f, "w").write(new)
            turned += 1
    print(f"respell: {len(known)} words, {turned} files")
    new = {snake(k) for k in known}
    if len(new) != len(known):
        sys.exit("respell: names fall together")


if __name__ == "__main__":
    main()
