"""What is made in the crate of the record: how many words a session has, the setters, and the record at the start."""
from .table import *


def constants():
    return f"""\
// A session is a row of words of eight bytes: counts, flags and states, then floats, then MAX_STATES slots for each of
// the two tolerance lists.
pub const COUNT_WORDS: usize = {len(COUNTS)};

pub const FLOAT_WORDS: usize = {len(FLOATS)};

pub const RTOL_AT: usize = COUNT_WORDS + FLOAT_WORDS;

pub const ATOL_AT: usize = RTOL_AT + MAX_STATES;

pub const SESSION_WORDS: usize = ATOL_AT + MAX_STATES;

pub const SESSION_LENGTH: usize = 8 * SESSION_WORDS;
"""


def session_words():
    return f"""\
-- How many words a session has, and at which the two tolerance lists begin. docs/SESSION.md says which field is
-- which word. Made by tools/record.py from the structs of src/lib.rt.
use Rattle.std.specs.Prelude.{{ℕ, ◌+◌, ◌*◌}}
use Rattle.common.specs.Limits.{{max_states}}

-- counts, flags and states, which stand first
abbrev pub count_words : ℕ
count_words = {len(COUNTS)}

-- floats, which stand behind them
abbrev pub float_words : ℕ
float_words = {len(FLOATS)}

abbrev pub rtol_at : ℕ
rtol_at = count_words + float_words

abbrev pub atol_at : ℕ
atol_at = rtol_at + max_states

abbrev pub session_words : ℕ
session_words = atol_at + max_states

-- in bytes
abbrev pub session_length : ℕ
session_length = 8 * session_words
"""


def setter(field):
    return f"""\
abbrev pub with_{field.name} : {TYPES[field.kind]} → Common → Common
with_{field.name} v c = record c {{ {field.name} = v }}
"""


def setters():
    text = """\
-- The record of a run, by its fields: a setter for each field of Common that a run changes; a start fixes hmin and
-- hmxi. Made by tools/record.py from the structs of src/lib.rt.
use Rattle.std.specs.Prelude.{Bool, true, false, ℕ, Float}
use Rattle.common.specs.declared.MethodFamily.{MethodFamily}
use Rattle.common.specs.declared.MethodFamily.TheVariants.{Adams, Bdf}
use Rattle.common.specs.declared.Common.{Common}

abbrev pub is_bdf : MethodFamily → Bool
is_bdf Adams = false
is_bdf Bdf = true

"""
    return text + "\n".join(setter(f) for f in COMMON_FIELDS if f.name not in FIXED)


def initial():
    return f"""\
-- The record at the start. Made by tools/record.py from the structs of src/lib.rt and what it says of each field.
use Rattle.std.specs.Prelude.{{true, false, ◌+◌, max, Float}}
use Rattle.numbers.specs.Float.{{zero_f, one_f, d0_7}}
use Rattle.common.specs.declared.MethodFamily.TheVariants.{{Adams}}
use Rattle.common.specs.declared.Settings.{{Settings}}
use Rattle.common.specs.declared.Common.{{Common}}
use Rattle.common.specs.Limits.{{mxordn_of, mxords_of}}
use Rattle.common.specs.Rules.{{icount20}}

-- h is the first step where it is given; the first derivative is asked for
unfoldable pub initial_of : Settings → Float → Float → Float → Float → Common
initial_of s x0 h hmin hmxi = {record_of((f.name, f.initial[1]) for f in COMMON_FIELDS)}
"""


def field(name, value):
    return f"{name}," if name == value else f"{name}: {value},"


def functions():
    start = lines((field(f.name, f.initial[0]) for f in COMMON_FIELDS), " " * 12)
    return f"""\
impl Common {{
    // The record at the start, with the first step where it is given; the first derivative is asked for.
    #[tactic(auto, unfolding(crate::specs::Initial::initial_of))]
    pub fn initial(s: Settings, x0: f64, h: f64, hmin: f64, hmxi: f64) -> Common
        ensures {{ result ≡ initial_of s x0 h hmin hmxi }}
    {{
        Common {{
{start}        }}
    }}
}}
"""


def make(put):
    put(f"{COMMON}/specs/SessionWords.antt", session_words())
    put(f"{COMMON}/specs/Record.antt", setters())
    put(f"{COMMON}/specs/Initial.antt", initial())
    put(f"{COMMON}/src/lib.rt", constants(), "the words of a session")
    put(f"{COMMON}/src/lib.rt", functions(), "the record at the start")
