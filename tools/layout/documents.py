"""What is made outside the library's crates: the table of docs/SESSION.md, and the length, the fields and the place
that hosts, the oracle and the rig go by."""
from .table import *

# A field's meaning, where its comment also says the range.
MEANING = {
    "n": "states",
    "maxsteps": "largest number of accepted steps",
    "mxordn": "largest Adams order; above 12 acts as 12",
    "mxords": "largest BDF order; above 5 acts as 5",
    "maxcor": "largest number of corrector iterations",
    "msbp": "steps between Jacobian checks; 0 acts as 1",
    "mxncf": "convergence failures in a step that end it; 0 acts as 1",
    "nrtol": "length of the relative tolerance list",
    "natol": "length of the absolute tolerance list",
    "nq": "order",
    "lmax": "largest number of columns in use",
    "ialth": "accepted steps until the next order choice",
    "kflag": "error failures in this step",
    "ncf": "convergence failures in this step",
    "m": "corrector iterations done in this pass",
    "column": "column of a running difference Jacobian",
}


def said(field):
    if field.name in RANGE_WORDS:
        return RANGE_WORDS[field.name]
    if field.is_float:
        return "any"
    if field.kind == "bool":
        return "0 or 1"
    low, high = RANGES.get(field.name, ("0", None))
    if high is None or high == COUNT[1]:
        return "below 2^62" if high else "any"
    return f"{int(low):,} to {SLOTS if high == 'MAX_STATES' else int(high):,}"


def table():
    rows = [f"| {f.word} | {f.name} | {MEANING.get(f.name) or f.comment} | {said(f)} |" for f in WORDS]
    for first, name, which in ((RTOL, "rtol", "relative"), (ATOL, "atol", "absolute")):
        rows.append(f"| {first} to {first + SLOTS - 1} | {name} | {which} tolerances, unused slots 0 "
                    "| not below 0 where used; NaN passes |")
    return "| word | name | meaning | range of 13 |\n|---|---|---|---|\n" + "\n".join(rows) + "\n"


def oracle():
    names = [f"{f.name}," for f in WORDS]
    return f"""fields! {{
{wrapped(names, "    ")}
}}

pub const LENGTH: usize = {SESSION_LENGTH};
pub const RTOL: usize = {RTOL};
pub const ATOL: usize = {ATOL};
"""


def make(put):
    length = f"A session is {SESSION_LENGTH} bytes: {SESSION_WORDS} words of eight bytes, each little-endian.\n"
    put("docs/SESSION.md", length, "the length")
    put("docs/SESSION.md", table(), "the fields")
    put("include/raimsklo.h", f"#define RAIMSKLO_SESSION_LENGTH {SESSION_LENGTH}\n", "the length of a session")
    put("hosts/python/raimsklo/library.py", f"SESSION_LENGTH = {SESSION_LENGTH}\n", "the length of a session")
    put("hosts/rust/src/lib.rs", f"const SESSION: usize = {SESSION_LENGTH};\n", "the length of a session")
    counts = dict(accepted="nst", nfe="nfe", nje="nje", nlu="nlu", rejected="rejected", total="total")
    places = ", ".join(f"{name}={BY_NAME[field].word}" for name, field in counts.items())
    put("hosts/python/raimsklo/library.py", f"COUNT_WORDS = dict({places})\n", "the counts' places")
    put("oracle/runs/src/session.rs", oracle(), "the fields")
    family = f"const FAMILY_AT: usize = 8 * {BY_NAME['meth'].word};\n"
    put("crates/rig/src/main.rt", family, "the family's place")
