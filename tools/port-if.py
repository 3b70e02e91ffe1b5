#!/usr/bin/env python3
"""A clause's `if◌then◌else◌` is the library's, and nothing else may have its name. The definitions' own choice, which unfolds only
where a proof asks for it, is `if p then x otherwise y` now. Run once, at the top, after tools/port-result.py: it turns specs/, proofs/ and
the edits of definitions and proofs."""

import os
import re

ELSE = re.compile(r"(?<![\w.'-])else(?![\w'-])")


def turned(code):
    return ELSE.sub("otherwise", code.replace("if◌then◌else◌", "if◌then◌otherwise◌"))


def antt(text):
    lines = []
    for line in text.split("\n"):
        # a comment keeps its words
        at = 0 if line.lstrip().startswith("--") else (line + " -- ").index(" -- ")
        lines.append(turned(line[:at]) + line[at:])
    return "\n".join(lines)


def edit(text):
    lines = []
    of_definitions = False
    for line in text.split("\n"):
        if line.startswith("file:"):
            of_definitions = line.rstrip().endswith(".antt")
        if of_definitions and line.startswith(("old:", "new:")):
            line = turned(line)
        lines.append(line)
    return "\n".join(lines)


def main():
    for top in ("crates", "docs/edits"):
        for root, dirs, names in os.walk(top):
            dirs[:] = sorted(d for d in dirs if d not in ("out", "target"))
            for name in sorted(names):
                turn = {".antt": antt, ".edit": edit}.get(os.path.splitext(name)[1])
                if turn is None:
                    continue
                path = os.path.join(root, name)
                with open(path, encoding="utf-8") as f:
                    text = f.read()
                after = turn(text)
                if after != text:
                    with open(path, "w", encoding="utf-8") as f:
                        f.write(after)


main()
