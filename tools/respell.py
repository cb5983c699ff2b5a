#!/usr/bin/env python3
"""Brings the repository's own names in definitions, lemmas and pages to the spelling of today's Rattle, by the table respelled.txt
beside this script: a line for each name, old and new. Run once, at the top, after port.py; a second run changes nothing.
Names of functions in src/, exported names and strings are not in the table."""

import os
import re
import sys

HERE = os.path.dirname(os.path.realpath(__file__))
ROOT = os.path.dirname(HERE)
# A name of the old spelling: no part of a longer one, but a last apostrophe stays.
NAME = re.compile(r"(?<![\w'·-])[A-Za-z][\w]*(?:-\w+)*'?(?![\w-])")
PAGES = ["README.md", "docs/PROMISES.md", "docs/DECISIONS.md"]


def table():
    with open(os.path.join(HERE, "respelled.txt"), encoding="utf-8") as lines:
        return dict(line.split() for line in lines)


def texts():
    for folder, _, files in os.walk(os.path.join(ROOT, "crates")):
        for name in sorted(files):
            if name.endswith((".antt", ".rt", ".edit")):
                yield os.path.join(folder, name)
    for page in PAGES:
        yield os.path.join(ROOT, page)


def main():
    names = table()
    for path in texts():
        with open(path, encoding="utf-8") as file:
            old = file.read()
        new = NAME.sub(lambda match: names.get(match.group(0), match.group(0)), old)
        if new != old:
            with open(path, "w", encoding="utf-8") as file:
                file.write(new)
    return 0


if __name__ == "__main__":
    sys.exit(main())
