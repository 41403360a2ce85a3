#!/usr/bin/env python3
"""places.py: lists, for each point of docs/DESIGN-PASS.md, what in crates/*/src may be written in an older form.

It finds by spelling, so a line it prints is a place to look at and no fault by itself. Tables of numbers are left out.
    python3 tools/places.py          counts, one line for each kind of place
    python3 tools/places.py --all    each place as FILE:LINE: TEXT
"""
import glob
import re
import sys
from collections import defaultdict

DATA = {"crates/replay/src/leaves.rt", "crates/replay/src/table.rt", "crates/replay_runs/src/runs.rt"}
FILES = [f for f in sorted(glob.glob("crates/*/src/*.rt")) if f not in DATA]
LINES = {f: open(f).read().split("\n") for f in FILES}

# What a line of code looks like: the point, the kind of place, its spelling.
SPELLINGS = [
    (1, "own enums", r"^\s*(pub )?enum \w+"),
    (1, "flags in a struct or beside a value", r"^\s+(pub )?\w+: bool,"),
    (1, "answers that are numbers", r"^\s*(return )?(0|1|2|1[0-9]|11[0-5]);?$|=> (0|1|2|1[0-9]|11[0-5]),"),
    (1, "kinds and refusals told by number",
     r"\b(number|kind|asked|table|w)(\.number)? [=!]= [0-9]+|plain\([0-9]+|^\s+number: [0-9]+,"),
    (3, "loops over a range", r"^\s*for \w+ in [^{]*\.\."),
    (3, "loops with a condition", r"^\s*(while|loop)\b"),
    (4, "answers true or false by hand", r"^\s*(return )?(true|false);?$|=> (true|false),"),
    (4, "copies of a record that are then changed", r"let mut \w+ = (c|s|self|x|sum|o);"),
    (4, "a field first bound to a name", r"let (\w+) = \w+\.\1;"),
    (4, "fields spelled twice", r"^\s+(\w+): \1,$"),
    (4, "compared by hand", r"if \w+ != \w+ \{|fn is_(bdf|unasked|asked)\b"),
    (7, "switches", r"^\s*(let \w+ = )?match "),
]


def functions():
    """(file, line, name, parameters, body) of each function."""
    for f in FILES:
        text = "\n".join(LINES[f])
        for m in re.finditer(r"^( *)(pub )?(extern \"C\" )?fn (\w+)(<[^>]*>)?\(([^)]*)\)", text, re.M):
            end = re.search(rf"^{m.group(1)}}}", text[m.end():], re.M)
            whole = text[m.end():m.end() + (end.start() if end else 0)]
            body = re.search(r"^ *\{(.*)", whole, re.M | re.S) or re.search(r"\{(.*)", whole, re.S)
            yield f, text[:m.start()].count("\n") + 1, m.group(4), m.group(6), body.group(1) if body else ""


def shape(body):
    """The body with each of its names and numbers the same: twins have one shape."""
    body = re.sub(r"//.*", "", body)
    return re.sub(r"\s+", " ", re.sub(r"\b[A-Za-z_]\w*\b|\b[0-9][0-9_.e+-]*\b", "#", body)).strip()


def places():
    found = defaultdict(list)
    for f in FILES:
        for i, line in enumerate(LINES[f]):
            if line.strip().startswith("//"):
                continue
            for point, kind, spelling in SPELLINGS:
                if re.search(spelling, line):
                    found[point, kind].append((f, i + 1, line.strip()))
    shapes, pairs, lengths = defaultdict(list), defaultdict(list), []
    for f, at, name, parameters, body in functions():
        if len(shape(body)) > 12 and "probe_c" not in f and "raimsklo_c" not in f:
            shapes[shape(body)].append((f, at, name))
        types = [p.strip() for p in parameters.split(",") if ":" in p]
        if any("[" in t for t in types) and any(re.match(r"(n|k|len|at)\w*: usize", t) for t in types):
            lengths.append((f, at, name))
        for a in types:
            for b in types:
                if a < b:
                    pairs[a, b].append((f, at, name))
    for same in shapes.values():
        if len(same) > 1:
            found[2, "functions of one shape"] += same
    clauses = defaultdict(list)
    for f in FILES:
        for i, line in enumerate(LINES[f]):
            if re.match(r"\s+requires", line):
                clauses[re.sub(r"requires \w* ?\{", "requires {", line.strip())].append((f, i + 1, line.strip()))
    for same in clauses.values():
        if len(same) > 2:
            found[5, "clauses that three or more contracts have"] += same
    for pair, where in pairs.items():
        if len(where) > 9:
            found[5, "parameters of ten or more functions: " + " and ".join(pair)] += where
    found[6, "functions of a slice and a count or a place beside it"] = lengths
    return found


def main():
    found = places()
    for point, kind in sorted(found):
        print(f"{point} {kind}: {len(found[point, kind])}")
        if "--all" in sys.argv[1:]:
            for f, at, text in found[point, kind]:
                print(f"    {f}:{at}: {text}")


if __name__ == "__main__":
    main()
