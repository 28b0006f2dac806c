#!/usr/bin/env python3
"""respell.py [DIR]: the repository's own words of definitions, lemmas and their variables, from camel case to snake case.

Run once, below DIR (default: here), after the toolchain's own port.py: addFront becomes add_front, addFront-back add_front-back. A word that
begins with a capital is a type or a module and stays. In pages only what stands in backquotes turns; src/ has no such word but in clauses."""
import pathlib
import re
import sys

WORD = re.compile(r"(?<![A-Za-z0-9_'])[a-z][A-Za-z0-9_]*[A-Z][A-Za-z0-9_]*")
SPAN = re.compile(r"`[^`\n]*`")


def snake(word):
    return re.sub(r"([A-Z])", lambda m: "_" + m.group(1).lower(), word)


def turned(text):
    return WORD.sub(lambda m: snake(m.group(0)), text)


def main(top):
    for path in sorted((top / "crates").rglob("*")):
        if path.suffix in (".antt", ".rt", ".edit") and path.is_file() and "out" not in path.relative_to(top).parts:
            old = path.read_text()
            if turned(old) != old:
                path.write_text(turned(old))
    for path in [top / "README.md", *sorted((top / "docs").glob("*.md"))]:
        old = path.read_text()
        new = SPAN.sub(lambda m: turned(m.group(0)), old)
        if new != old:
            path.write_text(new)


main(pathlib.Path(sys.argv[1] if len(sys.argv) > 1 else "."))
