#!/usr/bin/env python3
"""record.py: makes everything that names every field of a session, from the one field list.

The list is the structs of crates/common/src/lib.rt and the tables of tools/layout/table.py. Whole files that are made
say so in their first lines; parts of other files stand between the marks 'made by tools/record.py: ..' and 'end of ..'.
Run it at the repository's root after a change of the structs or of the tables. With --check nothing is written, and it
fails if a file is not what it would write.
"""
import os
import sys

sys.dont_write_bytecode = True
sys.path.insert(0, os.path.dirname(os.path.abspath(__file__)))
from layout import common, documents, invariants, laws, probe, session  # noqa: E402

MARKS = {".rt": ("// ", ""), ".rs": ("// ", ""), ".antt": ("-- ", ""), ".py": ("# ", ""), ".md": ("<!-- ", " -->"),
         ".h": ("/* ", " */")}
made = {}


def put(path, text, part=None):
    """The text as the whole file, or as the part of it between the part's marks."""
    if part:
        old = made.get(path) or open(path).read()
        opening, closing = MARKS[os.path.splitext(path)[1]]
        begin, end = f"{opening}made by tools/record.py: {part}{closing}\n", f"{opening}end of {part}{closing}\n"
        if old.count(begin) != 1 or old.count(end) != 1:
            sys.exit(f"record.py: {path}: the marks of '{part}' are not there once each")
        text = old.split(begin)[0] + begin + text + end + old.split(end)[1]
    made[path] = text


def main():
    for maker in (common, session, laws, invariants, probe, documents):
        maker.make(put)
    different = [path for path, text in made.items() if not os.path.exists(path) or open(path).read() != text]
    if "--check" in sys.argv[1:]:
        for path in different:
            print(f"record.py: {path} is not what tools/record.py writes", file=sys.stderr)
        sys.exit(1 if different else 0)
    for path in different:
        with open(path, "w") as out:
            out.write(made[path])
        print(path)


if __name__ == "__main__":
    main()
