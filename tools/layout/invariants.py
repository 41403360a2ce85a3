"""What is made in the crate of what every run keeps: that the record's floats are of the format, float by float."""
from .table import *

FLOAT_FIELDS = [f for f in COMMON_FIELDS if f.is_float]
# What is known of the parameters of a start.
GIVEN = {"x0": "p", "h": "q", "hmin": "m", "hmxi": "i"}


def parameters(changed=None):
    return [("v" if f is changed else f.name + "₀") for f in FLOAT_FIELDS]


def put_law(field):
    known = record_of(((f.name, "p" if f is field else f"f.{f.name}") for f in FLOAT_FIELDS), "    ")
    return f"""    pub put-{field.name} : Floats
{wrapped(parameters(field), "        ")}
    put-{field.name} = {known}
"""


def records():
    same = lambda x: ((f.name, f"{x}.{f.name}") for f in FLOAT_FIELDS)
    initial = ((f.name, GIVEN.get(f.initial[1], "literal _")) for f in FLOAT_FIELDS)
    puts = "\n".join(put_law(f) for f in FLOAT_FIELDS if f.name not in FIXED)
    return f"""\
-- That the floats of the record `Common` are of the format, said of the floats one by one, so that it stands as it is
-- where another field is set; one law for the setter of each float; a session's floats and those of its record; and the
-- record at the start. Made by tools/record.py from the structs of crates/common/src/lib.rt. Assumes nothing.
use lib.Ieee.{{Float}}
use Rattle.common.specs.declared.Settings.{{Settings}}
use Rattle.common.specs.declared.Common.{{Common}}
use Rattle.common.specs.Initial.{{initial_of}}
use Rattle.questions.specs.declared.Session.{{Session}}
use Rattle.session.proofs.Fits.{{Fit, FloatsFit}}
use Rattle.invariants.proofs.Floats.{{literal}}

pub record Floats (
{wrapped(parameters(), "    ")}
    : Float) : Type 0 where
{lines((f"pub {f.name} : Fit {f.name}₀" for f in FLOAT_FIELDS), "  ")}
abbrev pub CommonFits : Common → Type 0
CommonFits c =
{wrapped(["Floats"] + [f"c.{f.name}" for f in FLOAT_FIELDS], "    ")}

module _ {{
{wrapped(parameters(), "    ")}
    v : Float}}
    (p : Fit v)
    (f : Floats
{wrapped(parameters(), "    ")})
  where
{puts}
pub commons : (x : Session) → FloatsFit x → CommonFits x.common
commons x f = {record_of(same("f"))}

pub floats : (x : Session) → Fit x.settings.xend → Fit x.settings.direction → CommonFits x.common
    → FloatsFit x
floats x xend direction c = {record_of([("xend", "xend"), ("direction", "direction"), *same("c")])}

pub initial-fits : (s : Settings) (x0 h hmin hmxi : Float) → Fit x0 → Fit h → Fit hmin → Fit hmxi
    → CommonFits (initial_of s x0 h hmin hmxi)
unfolding initial_of
initial-fits s x0 h hmin hmxi p q m i = {record_of(initial)}
"""


def make(put):
    put(f"{INVARIANTS}/proofs/Records.antt", records())
