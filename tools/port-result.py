#!/usr/bin/env python3
"""`result` is a word of today's clauses: what a function returns. So the definition of that name in the interpreter's
specs/Events, which makes a Result, is `result_of` now. Run once, at the top, after tools/port-names.py."""

import os
import re

NAMED = re.compile(r"specs\.Events\.\{[^}]*(?<![\w.'-])result(?![\w'-])")
WORD = re.compile(r"(?<![\w.'-])result(?![\w'-])(?!\s*[:=≡])")


def main():
    for root, dirs, names in os.walk("crates"):
        dirs[:] = sorted(d for d in dirs if d not in ("out", "target"))
        for name in sorted(names):
            path = os.path.join(root, name)
            if not name.endswith((".rt", ".antt")):
                continue
            with open(path, encoding="utf-8") as f:
                text = f.read()
            own = path.endswith("interpreter/specs/Events.antt")
            if not own and not NAMED.search(text):
                continue
            lines = []
            for line in text.split("\n"):
                if name.endswith(".antt") or line.lstrip().startswith(("ghost use", "requires", "ensures")):
                    # a comment keeps its words, and a clause its returned value
                    code, mark, comment = line.partition("-- ") if name.endswith(".antt") else (line, "", "")
                    line = WORD.sub("result_of", code) + mark + comment
                    if own:
                        line = re.sub(r"abbrev pub result :", "abbrev pub result_of :", line)
                        line = re.sub(r"^result n v t", "result_of n v t", line)
                lines.append(line)
            after = "\n".join(lines)
            if after != text:
                with open(path, "w", encoding="utf-8") as f:
                    f.write(after)


main()
