"""What is made in the probe: the record from the numbers that are lent; fields that these leave out are blank."""
from .table import *

STATE = {"bool": "{} == 1", "MethodFamily": "family({})", "usize": "{}", "f64": "{}"}
STATE_OF = {"bool": "eqb ({}) 1", "MethodFamily": "lent_family ({})", "usize": "{}", "f64": "{}"}


def lent(field, end):
    if field.name in PROBED_FLOATS:
        place = PROBED_FLOATS.index(field.name)
        return STATE[field.kind].format(f"floats[{place}]") if end == 0 else f"get_or fs {place} nan"
    if field.name in PROBED_COUNTS:
        place = PROBED_COUNTS.index(field.name)
        return (STATE[field.kind].format(f"counts[{place}]") if end == 0
                else STATE_OF[field.kind].format(f"get_or cs {place} 0"))
    return BLANK[field.kind][end]


def in_order(fields):
    """The family behind the floats, where its word is."""
    return sorted(fields, key=lambda f: (not f.is_float, f.kind != "MethodFamily"))


def function(name, record, fields):
    return f"""#[tactic(auto, unfolding(crate::specs::Lent::lent_{name}))]
fn {name}(floats: &[f64], counts: &[usize]) -> {record}
    requires {{ (length floats.now ≡ {len(PROBED_FLOATS)}) × (length counts.now ≡ {len(PROBED_COUNTS)}) }}
    ensures {{ result ≡ lent_{name} floats.now counts.now }}
{{
    {record} {{
{lines((f"{f.name}: {lent(f, 0)}," for f in fields), "        ")}    }}
}}
"""


def definition(name, record, fields):
    return f"""unfoldable pub lent_{name} : List Float → List ℕ → {record}
lent_{name} fs cs = {record_of((f.name, lent(f, 1)) for f in fields)}

"""


def make(put):
    common = in_order(COMMON_FIELDS)
    put(f"{PROBE}/src/steps.rt", function("settings", "Settings", SETTINGS_FIELDS) + "\n"
        + function("common", "Common", common), "the record from the numbers that are lent")
    put(f"{PROBE}/specs/Lent.antt", definition("settings", "Settings", SETTINGS_FIELDS)
        + definition("common", "Common", common), "the record from the numbers that are lent")
