#!/usr/bin/env python3
"""Brings this repository's own definitions and lemmas to the spelling of today's Rattle. It was run once, right after the kit's port.py.

usage: tools/respell.py [FOLDER]     rewrites the .rt, .antt, .edit and .md files below FOLDER (or this repository) in place

A name in camel case that begins with a small letter becomes one in snake case, each part of a name with dashes by itself:
`headerOf` to `header_of`, `length-closeUp` to `length-close_up`. No name of src/ is written so, and none of the library's.
A dash still joins the two names of a lemma; a field of a record or a definition in proofs/ that had one gets an underscore.
"""
import re
import sys
from pathlib import Path

ROOT = Path(sys.argv[1] if len(sys.argv) > 1 else Path(__file__).resolve().parent.parent)

CAMEL = re.compile(r"(?<![\w′'])[a-z][a-z0-9]*(?:[A-Z][a-z0-9]*)+(?![\w′'])")

# fields of records and definitions that had a dash, and two facts that were spelled as values
NAMED = {
    "answers-same": "answers_same",
    "market-same": "market_same",
    "desk-same": "desk_same",
    "events-counted": "events_counted",
    "words-after": "words_follow",  # `words_after` is the definition `wordsAfter`
    "answers-written": "answers_written",
    "numerator-some": "numerator_some",
    "denominator-some": "denominator_some",
    "denominator-most": "denominator_most",
    "not-above-last": "not_above_last",
    "places-left": "places_left",
    "orders-left": "orders_left",
    "lent-in": "lent_in",
    "at-list": "at_list",
    "x-figures": "x_figures",
    "refusal-of": "refusal_of",
    "spelled-value": "spelled_value",
    "spelled-slice": "spelled_slice",
    "spelled-shared": "spelled_shared",
    "spelled-ref": "spelled_ref",
    "shared-slice": "shared_slice",
    "kept-slice": "kept_slice",
    "kept-ref": "kept_ref",
    "filled-start": "filled_start",
    "clearing-start": "clearing_start",
    "clearing-next": "clearing_next",
    "asked-start": "asked_start",
    "asked-next": "asked_next",
    "of-item": "of_item",
    "of-formula": "of_formula",
    "is-full": "is_full",
    "first-held": "first_held",
    "Said-close-gap": "SaidCloseGap",
    "Said-open-gap": "SaidOpenGap",
}
DASHED = re.compile(r"(?<![\w'-])(?:" + "|".join(re.escape(name) for name in NAMED) + r")(?![\w'-])")

# lemmas whose name, as port.py left it, is that of the definition that they speak of
LEMMAS = {
    "crates/definitions/proofs/OneOrder.antt": ("first_by", "first_by_lem"),
    "crates/auction/proofs/Laws.antt": ("line_after", "line_after_lem"),
}

# files that say how names were spelled
KEPT = ("docs/PORT.md",)


def snake(name):
    name = re.sub(r"([a-z0-9])([A-Z])", r"\1_\2", name)
    return re.sub(r"([A-Z])([A-Z][a-z])", r"\1_\2", name).lower()


def respelled(text):
    text = CAMEL.sub(lambda m: snake(m[0]), text)
    return DASHED.sub(lambda m: NAMED[m[0]], text)


def quoted(text):
    """A page's text, with what stands in backquotes respelled."""
    return re.sub(r"`[^`\n]+`", lambda m: respelled(m[0]), text)


def main():
    for file in sorted(ROOT.rglob("*")):
        path = file.relative_to(ROOT)
        if not file.is_file() or file.suffix not in (".rt", ".antt", ".edit", ".md") or {"out", "target", ".git"} & set(path.parts):
            continue
        if path.as_posix() in KEPT:
            continue
        old = text = file.read_text(encoding="utf-8")
        if path.as_posix() in LEMMAS:
            lemma, name = LEMMAS[path.as_posix()]
            text = re.sub(rf"(?<![\w'-]){lemma}(?![\w'-])", name, text)
        text = quoted(text) if file.suffix == ".md" else respelled(text)
        if text != old:
            file.write_text(text, encoding="utf-8")


main()
