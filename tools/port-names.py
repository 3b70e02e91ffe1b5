#!/usr/bin/env python3
"""Brings the repository's own words to the spelling of today's Rattle: snake case for definitions, lemmas, labels
and variables of specs/, proofs/ and clauses, as `boxOf` to `box_of`. Types, facts and modules keep their camel case,
and a dash still joins the parts of a lemma's name. Run once, at the top, after /opt/rattle/port/port.py.

    python3 tools/port-names.py [--list]      --list: prints old and new, and what falls together, and changes nothing
"""

import os
import re
import sys

# two hand-made names that hold a fact's name, which stays
KEPT = {"is_IsWord"}
# words that would otherwise fall together with another name of the crates
OTHER = {}
# what stands in quotes is text: a string, a byte of Rust, or an escape of a string over several lines. A prime belongs to
# an antt word
TEXT = r"\"(?:\\.|[^\"\\\n])*\""
WORD = {
    ".antt": re.compile(TEXT + r"|\b[A-Za-z_][A-Za-z0-9_']*"),
    ".rt": re.compile(r"\\x[0-9A-Fa-f]{2}|\\.|'(?:\\[^'\n]+|[^'\\\n])'|" + TEXT + r"|\b[A-Za-z_][A-Za-z0-9_]*"),
}
CAMEL = re.compile(r"^_*[a-z][a-z0-9_']*[A-Z]")
# a definition that held a dash
DASHED = {"taken-from": "taken_from"}
# lemmas that port.py respelled with an underscore, and that would fall together with a definition: they get their dash back
LEMMAS = (
    "differs_at goes_on join_first left_out line_read no_answer no_change not_digit one_line one_more round_trip same_bool"
    " some_words too_long value_in value_read word_byte word_row"
).split()


def snake(word):
    if word in OTHER:
        return OTHER[word]
    word = re.sub(r"([a-z0-9])([A-Z])", r"\1_\2", word)
    return word.lower()


def files():
    for root, dirs, names in os.walk("crates"):
        dirs[:] = sorted(d for d in dirs if d not in ("out", "target"))
        for name in sorted(names):
            if name.endswith((".rt", ".antt")):
                yield os.path.join(root, name)


def token_of(path):
    return WORD[os.path.splitext(path)[1]]


def turned(text, token):
    def one(m):
        w = m.group()
        return snake(w) if CAMEL.match(w) and w not in KEPT else w

    if token is WORD[".antt"]:
        for lemma in LEMMAS:
            text = re.sub(r"(?<![\w'.-])" + lemma + r"(?![\w'-])", lemma.replace("_", "-"), text)
    text = token.sub(one, text)
    for old, new in DASHED.items():
        text = re.sub(r"(?<![\w'-])" + re.escape(old) + r"(?![\w'-])", new, text)
    return text


def main():
    texts = {p: open(p, encoding="utf-8").read() for p in files()}
    words = {w for p, t in texts.items() for w in token_of(p).findall(t)}
    if "--list" in sys.argv:
        new = {}
        for w in sorted(words):
            if CAMEL.match(w) and w not in KEPT:
                new.setdefault(snake(w), []).append(w)
        for n, olds in sorted(new.items()):
            falls = " FALLS TOGETHER" if n in words or len(olds) > 1 else ""
            print(n, *olds, falls)
        return
    for path, text in texts.items():
        after = turned(text, token_of(path))
        if after != text:
            with open(path, "w", encoding="utf-8") as f:
                f.write(after)


main()
