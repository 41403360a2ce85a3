"""What is made in the crate of a session's bytes: its fields as words and back, and the ranges of 13 that one word
says."""
from .table import *

FROM = "Made by tools/record.py from the structs of crates/common/src/lib.rt."
COUNT_ARRAY = "[usize; common::COUNT_WORDS]"
FLOAT_ARRAY = "[f64; common::FLOAT_WORDS]"
# A field of Common from its word, in code and in the definitions; and the number of a field.
STATE = {"bool": "{} == 1", "MethodFamily": "family({})", "usize": "{}", "f64": "{}"}
NUMBER = {"bool": "usize::from({})", "MethodFamily": "{} as usize", "usize": "{}", "f64": "{}"}
STATE_OF = {"bool": "flag_of ({})", "MethodFamily": "family_of ({})", "usize": "{}", "f64": "{}"}
NUMBER_OF = {"bool": "flag_number {}", "MethodFamily": "family_number {}", "Phase": "phase_number {}", "usize": "{}",
             "f64": "{}"}

SETTINGS = [f for f in WORDS if f.record == "settings"]
RECORD = [f for f in WORDS if f.record == "common"]
# The counts of a run, which 13 keeps below 2^62.
COUNTED = [f for f in RECORD if f.bounds == COUNT]


# ---- src/fields.rt


def place(f):
    return f"f[{f.word - len(COUNTS)}]" if f.is_float else f"u[{f.word}]"


def table():
    bound = lambda f, end: CODE.get(f.bounds[end], f.bounds[end])
    rows = [f"Range {{ low: {bound(f, 0)}, high: {bound(f, 1)} }}, // {f.name}" for f in COUNTS]
    return f"const RANGES: [Range; common::COUNT_WORDS] = [\n{lines(rows, '    ')}];\n"


def source():
    one = lambda parts: lines((f"{p}," for p in parts), "        ")
    number = lambda f: NUMBER[f.kind].format(f.code)
    numbers = ["x.phase as usize"] + [number(f) for f in COUNTS[1:]]
    record = sorted(RECORD, key=lambda f: not f.is_float)
    return f"""// A session's fields as words and back, and the ranges of 13 that one word says.
// {FROM}
ghost use Rattle.std.specs.Prelude.{{◌≡◌, map}};
ghost use Rattle.session.specs.Fields.{{counts_of, floats_of, settings_of, floats_alone_of, common_of, session_of}};
ghost use Rattle.session.specs.Fields.{{lowest, highest}};

use crate::states::{{family, phase}};
use common::{{Common, MethodFamily, Settings}};
use questions::Session;

// The least and the greatest value of a count.
#[derive(Clone, Copy)]
pub struct Range {{
    pub low: usize,
    pub high: usize,
}}

// Those of each count. The table is answered whole, to be bound once: an index into the constant writes all of it anew.
#[rattlefmt::skip]
{table()}
#[tactic(auto, unfolding(crate::specs::Fields::lowest, crate::specs::Fields::highest))]
pub fn ranges() -> [Range; common::COUNT_WORDS]
    ensures {{ (map (λ r. r.low) result ≡ lowest) × (map (λ r. r.high) result ≡ highest) }}
{{
    RANGES
}}

// The counts of a session, flags and states among them.
pub fn counts(x: Session) -> {COUNT_ARRAY}
    ensures {{ result ≡ counts_of x }}
{{
    let s = x.settings;
    let c = x.common;
    [
{one(numbers)}    ]
}}

// The floats of a session.
pub fn floats(x: Session) -> {FLOAT_ARRAY}
    ensures {{ result ≡ floats_of x }}
{{
    let s = x.settings;
    let c = x.common;
    [
{one(f.code for f in FLOATS)}    ]
}}

fn settings(u: &{COUNT_ARRAY}, f: &{FLOAT_ARRAY}) -> Settings
    ensures {{ result ≡ settings_of u.now f.now }}
{{
    Settings {{
{one(f"{f.name}: " + STATE[f.kind].format(place(f)) for f in SETTINGS_FIELDS)}    }}
}}

// The record with its floats alone: a record of all fields, each from an array, takes long to check.
fn floats_alone(f: &{FLOAT_ARRAY}) -> Common
    ensures {{ result ≡ floats_alone_of f.now }}
{{
    Common {{
{one(f"{f.name}: " + (place(f) if f.is_float else BLANK[f.kind][0]) for f in record)}    }}
}}

fn common(u: &{COUNT_ARRAY}, f: &{FLOAT_ARRAY}) -> Common
    ensures {{ result ≡ common_of u.now f.now }}
{{
    Common {{
{one(f"{f.name}: " + STATE[f.kind].format(place(f)) for f in record if not f.is_float)}        ..floats_alone(f)
    }}
}}

pub fn session(u: &{COUNT_ARRAY}, f: &{FLOAT_ARRAY}) -> Session
    ensures {{ result ≡ session_of u.now f.now }}
{{
    Session {{
        settings: settings(u, f),
        common: common(u, f),
        phase: phase(u[0]),
    }}
}}
"""


# ---- specs/Fields.antt


def entry(f):
    return f"get_or f {f.word - len(COUNTS)} nan" if f.is_float else f"get_or u {f.word} 0"


def listed(end):
    """A table of bounds, an entry a line, each with its field's name behind it."""
    rows = [f"{'' if k == 0 else '∷ '}{SPEC.get(f.bounds[end], f.bounds[end])}  -- {f.name}"
            for k, f in enumerate(COUNTS)]
    return lines(rows, "    ") + "    ∷ []"


def definitions():
    of = lambda f: (f.name, STATE_OF[f.kind].format(entry(f)))
    count = lambda f: ("meth", "family") if f.name == "meth" else of(f)
    with_counts = lambda f: (f.name, f"c.{f.name}") if f.is_float else count(f)
    return f"""\
-- A session's fields as words and back, and the ranges of 13 that one word says. The order is that of docs/SESSION.md.
-- {FROM}
use Rattle.std.specs.Prelude.{{false, List, [], ◌∷◌, ℕ, get_or, Float}}
use Rattle.std.specs.Float.{{nan}}
use Rattle.common.specs.declared.MethodFamily.{{MethodFamily}}
use Rattle.common.specs.declared.MethodFamily.TheVariants.{{Adams}}
use Rattle.common.specs.declared.Settings.{{Settings}}
use Rattle.common.specs.declared.Common.{{Common}}
use Rattle.common.specs.Limits.{{max_states}}
use Rattle.questions.specs.declared.Session.{{Session}}
use Rattle.session.specs.States.{{flag_number, flag_of, family_number, family_of, phase_number, phase_of}}

-- ---- the counts, flags and states among them, and the floats

abbrev pub counts_of : Session → List ℕ
counts_of x =
{row(NUMBER_OF[f.kind].format(f.path) for f in COUNTS)}

abbrev pub floats_of : Session → List Float
floats_of x =
{row(f.path for f in FLOATS)}

-- ---- the record from its counts u and its floats f

abbrev pub settings_of : List ℕ → List Float → Settings
settings_of u f = {record_of(of(f) for f in SETTINGS)}

-- the floats alone
abbrev pub floats_alone_of : List Float → Common
floats_alone_of f = {record_of(of(f) if f.is_float else (f.name, BLANK[f.kind][1]) for f in RECORD)}

-- a record with its family and its counts replaced
abbrev pub with_counts : MethodFamily → List ℕ → Common → Common
with_counts family u c = {record_of(with_counts(f) for f in RECORD)}

abbrev pub common_of : List ℕ → List Float → Common
common_of u f = with_counts (family_of ({entry(BY_NAME["meth"])})) u (floats_alone_of f)

abbrev pub session_of : List ℕ → List Float → Session
session_of u f = record {{ settings = settings_of u f; common = common_of u f; phase = phase_of ({entry(COUNTS[0])}) }}

-- ---- least and greatest value of each count; 2^64 - 1 is no limit

unfoldable pub lowest : List ℕ
lowest =
{listed(0)}

unfoldable pub highest : List ℕ
highest =
{listed(1)}
"""


# ---- specs/Names.antt


def names():
    each = "\n".join(f"abbrev pub {f.name}_word : List ℕ → ℕ\n{f.name}_word b = word b {f.word}\n" for f in COUNTS)
    return f"""\
-- The counts of a session by the names of docs/SESSION.md: the number that stands in the bytes b, whatever it is.
-- icount is kept with 1,000,000 added, kflag as the number of error failures, a flag as 0 or 1.
-- {FROM}
use Rattle.std.specs.Prelude.{{List, ℕ}}
use Rattle.words.specs.Words.{{word}}

{each}"""


def ranges():
    """Accepted and Counts: what the same rows say of the record of a run."""
    settings = [f for f in SETTINGS if f.name in RANGES and f.kind == "usize"]
    limit = lambda f: f"s.{f.name} ≤ {SPEC.get(f.bounds[1], f.bounds[1])}"
    accepted = lambda f: limit(f) if f.bounds[0] == "0" else f"({f.bounds[0]} ≤ s.{f.name}) × ({limit(f)})"
    return f"""-- settings as start accepts
pub record Accepted (s : Settings) : Type 0 where
{lines((f"pub {f.name} : {accepted(f)}" for f in settings), "  ")}
-- the counts, each at most a bound
pub record Counts (c : Common) (b : ℕ) : Type 0 where
{lines((f"pub {f.name} : c.{f.name} ≤ b" for f in COUNTED), "  ")}
"""


def wider():
    """Counts within a bound are within a wider one."""
    return f"""pub counts-wider : {{c : Common}} {{a b : ℕ}} → a ≤ b → Counts c a → Counts c b
counts-wider h k = {record_of((f.name, f"omega (arith, k.{f.name})") for f in COUNTED)}

"""


def make(put):
    put(f"{SESSION}/src/fields.rt", source())
    put(f"{SESSION}/specs/Fields.antt", definitions())
    put(f"{SESSION}/specs/Names.antt", names())
    put(RANGES_OF_A_RUN, ranges(), "the ranges of settings and counts")
    put(RANGES_LAWS, wider(), "a wider bound of the counts")
