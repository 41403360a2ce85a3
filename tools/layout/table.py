"""The field list of a session: the structs of crates/common/src/lib.rt, and the tables that say what those do not.

A new field goes to the end of its group in its struct (floats, counts, flags), with its comment. It needs a row in
RANGES if it is a count, and one in INITIAL if a start gives it another value than 0, false or Adams. After a run of
tools/record.py what is left is its range in words (crates/session/specs/WordRanges.antt, which is not made: it says
what RANGES must be) and its use: in the code and the definition that set it, in the lists of what a move may change
(`attempted`, `tests_moved`), for a float its law `put-..` where it is set, for a count that it stays in its range.
"""
import re

COMMON = "crates/common"
SESSION = "crates/session"
INVARIANTS = "crates/invariants"
PROBE = "crates/probe"
PHASES = "crates/questions"
RANGES_OF_A_RUN = f"{COMMON}/specs/Ranges.antt"
RANGES_LAWS = f"{COMMON}/proofs/Ranges.antt"

TYPES = {"f64": "Float", "usize": "ℕ", "bool": "Bool", "MethodFamily": "MethodFamily"}
# Fields of Common that a start fixes: no setter is made for them.
FIXED = ("hmin", "hmxi")

# ---- the ranges of 13 that one word says

# Least and greatest value of a count; None: that end is open. What fields say of each other is in
# crates/session/specs/InRange.antt, and a count that only such a relation bounds has no row here.
COUNT = ("0", "4611686018427387903")
LIMIT = "1000000"
LARGEST = "18446744073709551615"
RANGES = {
    "phase": ("0", "10"),
    "n": ("1", "MAX_STATES"),
    "maxsteps": ("1", LIMIT),
    "mxordn": ("1", LIMIT),
    "mxords": ("1", LIMIT),
    "maxcor": ("1", LIMIT),
    "msbp": ("0", LIMIT),
    "mxncf": ("0", LIMIT),
    "supplied": ("0", "1"),
    "given": ("0", "1"),
    "meth": ("1", "2"),
    "nq": ("1", "12"),
    "lmax": ("2", "13"),
    "ialth": ("1", None),
    "icount": ("20", "1000020"),
    "table": ("0", "1"),
    "nslp": COUNT,
    "nst": COUNT,
    "nfe": COUNT,
    "nje": COUNT,
    "nlu": COUNT,
    "rejected": COUNT,
    "total": COUNT,
    "count": COUNT,
    "kflag": ("0", "9"),
    "due": ("0", "1"),
    "jcur": ("0", "1"),
    "setup": ("0", "1"),
}
# A bound by its name, in code and in the definitions.
CODE = {"MAX_STATES": "common::MAX_STATES"}
SPEC = {"MAX_STATES": "max_states"}
# The range in words, where it is no plain row of RANGES.
RANGE_WORDS = {
    "phase": "a number of the table of phases",
    "nrtol": "1 or n",
    "natol": "1 or n",
    "lmax": "2 to 13, above nq",
    "nqnyh": "a multiple of n, nq·n to 12·n",
    "ialth": "at least 1",
    "icount": "20 to 1,000,020 (−999,980 to 20)",
    "kflag": "0 to 9 (0 to −9)",
    "ncf": "below mxncf, of which 0 acts as 1",
    "m": "below maxcor",
    "column": "below n",
    "meth": "1 or 2",
}

# ---- the record at the start

# What a start gives a field, in code and in the definition; s, x0, h, hmin and hmxi are the parameters.
INITIAL = {
    "hmin": ("hmin", "hmin"),
    "hmxi": ("hmxi", "hmxi"),
    "tn": ("x0", "x0"),
    "h": ("h", "h"),
    "told": ("x0", "x0"),
    "el0": ("1.0", "one_f"),
    "convrate": ("0.7", "d0_7"),
    "nq": ("1", "1"),
    "lmax": ("s.mxordn().max(s.mxords()) + 1", "max (mxordn_of s) (mxords_of s) + 1"),
    "nqnyh": ("s.n", "s.n"),
    "ialth": ("2", "2"),
    "icount": ("1000020", "icount20"),
    "nfe": ("1", "1"),
    "setup": ("true", "true"),
}
BLANK = {
    "f64": ("0.0", "zero_f"),
    "usize": ("0", "0"),
    "bool": ("false", "false"),
    "MethodFamily": ("MethodFamily::Adams", "Adams"),
}

# ---- the record as the probe lends it; the fields that are left out are blank

PROBED_FLOATS = ("hmxi", "tn", "h", "hu", "rc", "el0", "conit", "rmax", "pdest", "pdlast", "convrate")
PROBED_COUNTS = ("n", "mxordn", "mxords", "msbp", "meth", "nq", "lmax", "nqnyh", "ialth", "icount", "table", "nslp",
                 "nst", "due")

# ---- what follows from these


class Field:
    """A field: its word in the session, its record (session, settings or common), name, type and comment."""

    def __init__(self, record, name, kind, comment):
        self.record, self.name, self.kind, self.comment, self.word = record, name, kind, comment, None

    @property
    def is_float(self):
        return self.kind == "f64"

    @property
    def code(self):
        return {"settings": "s.", "common": "c."}[self.record] + self.name

    @property
    def path(self):
        return f"x.{self.name}" if self.record == "session" else f"x.{self.record}.{self.name}"

    @property
    def bounds(self):
        low, high = RANGES.get(self.name, (None, None))
        return low or "0", high or LARGEST

    @property
    def initial(self):
        return INITIAL.get(self.name) or BLANK[self.kind]


def struct(name):
    """The fields of a struct, in its order."""
    text = open(f"{COMMON}/src/lib.rt").read()
    body = re.search(r"pub struct " + name + r" \{\n(.*?)\n\}", text, re.S).group(1)
    rows = [re.match(r"\s+pub (\w+): (\w+),\s+// (.*)", line).groups() for line in body.split("\n")]
    return [Field(name.lower(), *row) for row in rows]


def words():
    """The fields in the order of their words: phase, counts, flags and states, then floats.

    The family's word stands before the counts of Common. In the struct it stands beside the flags, so that the record
    has one gap.
    """
    both = struct("Settings") + struct("Common")
    both.sort(key=lambda f: (f.record == "common", f.kind != "MethodFamily"))
    rows = [Field("session", "phase", "Phase", "what the run waits for")]
    rows += [f for f in both if not f.is_float] + [f for f in both if f.is_float]
    for word, field in enumerate(rows):
        field.word = word
    return rows


WORDS = words()
COUNTS = [f for f in WORDS if not f.is_float]
FLOATS = [f for f in WORDS if f.is_float]
SLOTS = int(re.search(r"pub const MAX_STATES: usize = (\d+);", open(f"{COMMON}/src/lib.rt").read()).group(1))
RTOL = len(WORDS)
ATOL = RTOL + SLOTS
SESSION_WORDS = ATOL + SLOTS
SESSION_LENGTH = 8 * SESSION_WORDS
BY_NAME = {f.name: f for f in WORDS}
# The fields of each struct in its order, with their words.
SETTINGS_FIELDS = [BY_NAME[f.name] for f in struct("Settings")]
COMMON_FIELDS = [BY_NAME[f.name] for f in struct("Common")]


def phases():
    text = open(f"{PHASES}/src/lib.rt").read()
    return re.findall(r"(\w+),", re.search(r"pub enum Phase \{(.*?)\n\}", text, re.S).group(1))


# ---- text


def wrapped(parts, indent, width=118):
    rows, row = [], indent
    for part in parts:
        if len(row) + len(part) + 1 > width and row.strip():
            rows.append(row.rstrip())
            row = indent
        row += part + " "
    rows.append(row.rstrip())
    return "\n".join(rows)


def lines(parts, indent):
    return "".join(f"{indent}{part}\n" for part in parts)


def record_of(parts, indent=""):
    """A record of antt from names and values, a field a line; its last line stands at the indent."""
    return "record {\n" + lines((f"{name} = {value};" for name, value in parts), indent + "  ") + indent + "}"


def row(parts):
    return wrapped([p if k == 0 else "∷ " + p for k, p in enumerate([*parts, "[]"])], "    ", 116)


def imports(module, items):
    rows, row = "", []
    for item in items:
        if len(f"use {module}.{{{', '.join([*row, item])}}}") > 118:
            rows, row = rows + f"use {module}.{{{', '.join(row)}}}\n", []
        row.append(item)
    return rows + f"use {module}.{{{', '.join(row)}}}\n"
