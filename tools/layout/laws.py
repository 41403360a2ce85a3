"""What is made of the proofs of a session's bytes: the laws that name every field, and the contracts of the two
functions that do."""
from .session import COUNTED, FROM, RECORD, SETTINGS
from .table import *

# Counts whose greatest value a relation with another field says, and no row.
RELATED = [f for f in COUNTS if f.name not in RANGES]
# Fields of `Orders` (crates/common/specs/Ranges.antt); what is neither these, a setting nor a count, is of `Counters`.
ORDERS = ("nq", "lmax", "nqnyh", "table")


# ---- proofs/Fits.antt


def fits():
    return f"""\
-- What a session's bytes can keep: counts of 64 bits, and floats of the format.
-- {FROM} Assumes nothing.
use mathlib.Core.List.{{List}}
use Prim.Native.Nat.{{ℕ, ◌^◌, ◌<◌}}
use lib.Dec.{{T}}
use lib.ListN.{{length, get_or}}
use lib.Ieee.{{Float, nan, binary64, fits}}
use Rattle.questions.specs.declared.Session.{{Session}}

pub record CountsFit (x : Session) : Type 0 where
{lines((f"pub {f.name} : {f.path} < 2 ^ 64" for f in COUNTS if f.kind == "usize"), "  ")}
abbrev pub Fit : Float → Type 0
Fit v = T (fits binary64 v)

pub record FloatsFit (x : Session) : Type 0 where
{lines((f"pub {f.name} : Fit {f.path}" for f in FLOATS), "  ")}
pub record Fits (x : Session) : Type 0 where
  pub counts : CountsFit x
  pub floats : FloatsFit x

-- every entry of a list
abbrev pub ListFits : List Float → Type 0
ListFits list = (i : ℕ) → i < length list → Fit (get_or list i nan)
"""


# ---- proofs/Listed.antt


def number_small(f):
    if f.kind == "usize":
        return f"f.{f.name}"
    return {"Phase": "phase-small", "MethodFamily": "family-small", "bool": "flag_small"}[f.kind] + f" {f.path}"


def told(f):
    """What WordRanges says of a word, from `lo` and `hi`."""
    low, high = f.bounds
    greatest = f"hi {f.word} (lit< tt)"
    greatest = {COUNT[1]: f"below-62 ({greatest})", LARGEST: f"below_64 ({greatest})"}.get(high) or greatest
    return f.name, greatest if low == "0" else f"(lo {f.word} (lit< tt), {greatest})"


def between(f):
    """A word between its bounds, from WordRanges r and Related o."""
    low, high = f.bounds
    if f in RELATED:
        return f"upto o.{f.name}"
    if low == "0":
        return f"upto (upto-62 r.{f.name})" if high == COUNT[1] else f"upto r.{f.name}"
    return f"(r.{f.name}.0, upto-64 r.{f.name}.1)" if high == LARGEST else f"r.{f.name}"


def in_ranges(f):
    """The same of a record's number, from Ranges (s, k, o, t) and CountsFit f."""
    low, high = f.bounds
    if f.kind != "usize":
        return {"Phase": "phase-from", "MethodFamily": "family-from", "bool": "flag-from"}[f.kind] + f" {f.path}"
    if f in RELATED:
        return f"upto (upto-64 f.{f.name})"
    part = "s" if f.record == "settings" else "k" if high == COUNT[1] else "o" if f.name in ORDERS else "t"
    if high == LARGEST:
        return f"({part}.{f.name}, upto-64 f.{f.name})"
    return f"upto {part}.{f.name}" if low == "0" else f"({part}.{f.name}.0, {part}.{f.name}.1)"


def known(f):
    """That a number which passes is that of a state."""
    if f.kind == "usize":
        return "refl"
    if f.kind == "MethodFamily":
        return f"family-known _ r.{f.name}.0 r.{f.name}.1"
    return {"Phase": "phase-known", "bool": "flag-known"}[f.kind] + f" _ r.{f.name}"


def back(f):
    return {"Phase": "phase-back", "MethodFamily": "family-back", "bool": "flag-back"}[f.kind] + f" {f.path},"


# Counts that a range alone does not keep below 2^64.
FITS = {
    "nrtol": "⊎_elim (λ e. omega arith) (λ e. omega arith) rtol",
    "natol": "⊎_elim (λ e. omega arith) (λ e. omega arith) atol",
}


def chain(parts, mark, last, indent):
    return wrapped([p if k == 0 else f"{mark} {p}" for k, p in enumerate([*parts, last])], indent, 116)


def laws():
    states = [f for f in COUNTS if f.kind not in ("usize",)]
    rows = [f for f in COUNTS if f.name in RANGES]
    numbers = [f for f in COUNTS if f.kind == "usize"]
    opened = lambda parts: [("(" if k == 0 else "") + p + " ▸" for k, p in enumerate(parts)]
    accepted = ((f.name, f"r.{f.name}") for f in SETTINGS if f.name in RANGES and f.kind == "usize")
    each = lambda parts: wrapped([*opened(parts), "none)"], "    ", 116)
    return f"""-- The laws that name every field of a session.
--     counts-small, floats-fit       what the bytes can keep, of the lists of words
--     counts-fit                     the ranges keep every count below 2^64
--     record-back                    the record from its own words
--     words-listed                   the counts in the bytes, one by one
--     word-ranges, words-between     what passes word by word, by the fields' names, and back
--     n-passes, nq-passes            the sizes that the other tests need
--     settings-accepted, counts-bounded     what passes, of the record of a run
--     words_back                     what passes has states that are written
--     record-between                 a record in the ranges passes word by word
-- {FROM} Assumes nothing.
use mathlib.Core.List.{{List, [], ◌∷◌}}
use mathlib.Core.Logic.{{⊎_elim}}
use mathlib.Core.Path.{{◌≡◌, refl}}
use mathlib.Core.Bool.{{true}}
use Prim.Native.Nat.{{ℕ, zero, suc, ◌-◌, ◌^◌, ◌≤◌, ◌<◌}}
use native.Mathlib.Omega.{{arith}}
use lib.Dec.{{lit<}}
use lib.ListN.{{get_or}}
use lib.Ieee.{{Float, of_bits, fits}}
use Rattle.loops.specs.For.{{times}}
use Rattle.numbers.specs.Float.{{zero_f}}
use Rattle.common.specs.Limits.{{max_states}}
use Rattle.common.specs.SessionWords.{{count_words}}
use Rattle.questions.specs.declared.Session.{{Session}}
use Rattle.common.specs.Ranges.{{Accepted, Counts, shape_of, step_numbers_of, Orders, EndedCounters, Ranges}}
use Rattle.words.specs.Words.{{counts_over}}
use Rattle.session.specs.Fields.{{counts_of, floats_of, settings_of, common_of, session_of, lowest, highest}}
{imports("Rattle.session.specs.Names", [f"{f.name}_word" for f in COUNTS])}\
use Rattle.session.specs.WordRanges.{{WordRanges}}
use Rattle.session.specs.Session.{{stored_counts, every, word_in_range, OneOrN}}
use Rattle.session.proofs.Fits.{{CountsFit, FloatsFit, Fit}}
use Rattle.session.proofs.StateNumbers.{{flag-from, family-from, phase-from}}
use Rattle.session.proofs.StateNumbers.{{flag_small, family-small, phase-small}}
use Rattle.session.proofs.StateNumbers.{{flag-back, family-back, phase-back}}
use Rattle.session.proofs.StateNumbers.{{flag-known, family-known, phase-known}}
use Rattle.session.proofs.Within.{{low, high, Between, between_none, ◌▹◌, upto}}

-- ---- what the bytes can keep

infixr 30 ◌▸◌
-- what holds of each entry of a list
data Each {{A : Type 0}} (P : A → Type 0) : List A → Type 0 where
  none : Each P []
  ◌▸◌ : {{a : A}} {{l : List A}} → P a → Each P l → Each P (a ∷ l)

entry : {{A : Type 0}} {{P : A → Type 0}} {{l : List A}} (d : A) → P d → Each P l → (i : ℕ) → P (get_or l i d)
entry d p none i = p
entry d p (q ▸ e) zero = q
entry d p (q ▸ e) (suc i) = entry d p e i

pub zero-fits : Fit zero_f
unfolding fits of_bits
zero-fits = tt

pub counts-small : (x : Session) → CountsFit x → (i : ℕ) → get_or (counts_of x) i 0 < 2 ^ 64
counts-small x f i =
    entry {{P = λ (w : ℕ). w < 2 ^ 64}} 0 (lit< tt)
{each(number_small(f) for f in COUNTS)}
    i

pub floats-fit : (x : Session) → FloatsFit x → (i : ℕ) → Fit (get_or (floats_of x) i zero_f)
floats-fit x f i =
    entry {{P = Fit}} zero_f zero-fits
{each(f"f.{f.name}" for f in FLOATS)}
    i

-- whether the run is over or not
pub counts-fit : (x : Session) → Accepted x.settings → Counts x.common (2 ^ 62 - 1)
    → Orders x.settings (shape_of x.common) → EndedCounters x.settings (step_numbers_of x.common)
    → x.common.ialth < 2 ^ 64
    → OneOrN x.settings.n x.settings.nrtol → OneOrN x.settings.n x.settings.natol → CountsFit x
counts-fit x s k o t ialth rtol atol =
    {record_of(((f.name, FITS.get(f.name, "omega arith")) for f in numbers), "    ")}

-- ---- the record from its own words

pub record-back : (x : Session) → session_of (counts_of x) (floats_of x) ≡ x
record-back x =
    rw (
{lines((back(f) for f in states), "      ")}    )

-- ---- the counts in the bytes, one by one

abbrev pub words_of : List ℕ → List ℕ
words_of b =
{row(f"{f.name}_word b" for f in COUNTS)}

pub words-listed : (b : List ℕ) → stored_counts b ≡ words_of b
unfolding counts_over times
words-listed b = refl

below-62 : {{v : ℕ}} → v ≤ {COUNT[1]} → v < 2 ^ 62
below-62 h = omega arith

below_64 : {{v : ℕ}} → v ≤ {LARGEST} → v < 2 ^ 64
below_64 h = omega arith

upto-62 : {{v : ℕ}} → v < 2 ^ 62 → v ≤ {COUNT[1]}
upto-62 h = omega arith

upto-64 : {{v : ℕ}} → v < 2 ^ 64 → v ≤ {LARGEST}
upto-64 h = omega arith

infixr 30 ◌◃◌
◌◃◌ : {{a b : ℕ}} {{l m : List ℕ}} → a ≡ b → l ≡ m → a ∷ l ≡ b ∷ m
p ◃ q = λ i. p i ∷ q i

-- what the relations between fields need of the counts
module _ (u : List ℕ) (q : every (word_in_range u) count_words ≡ true) where
  pub n-passes : (1 ≤ (settings_of u []).n) × ((settings_of u []).n ≤ max_states)
  unfolding lowest highest
  n-passes = (low u q {BY_NAME["n"].word} (lit< tt), high u q {BY_NAME["n"].word} (lit< tt))

  pub nq-passes : (common_of u []).nq ≤ {BY_NAME["nq"].bounds[1]}
  unfolding highest
  nq-passes = high u q {BY_NAME["nq"].word} (lit< tt)

module _ (b : List ℕ) where
  pub word-ranges : every (word_in_range (words_of b)) count_words ≡ true → WordRanges b
  unfolding lowest highest
  word-ranges q =
      let lo = low (words_of b) q in
      let hi = high (words_of b) q in
      {record_of((told(f) for f in rows), "      ")}

  pub settings-accepted : (f : List Float) → WordRanges b → Accepted (settings_of (words_of b) f)
  settings-accepted f r = {record_of(accepted, "  ")}

  pub counts-bounded : (f : List Float) → WordRanges b → Counts (common_of (words_of b) f) (2 ^ 62 - 1)
  counts-bounded f r = {record_of(((f.name, f"upto-62 r.{f.name}") for f in COUNTED), "  ")}

  -- counts that only a relation between fields bounds
  pub record OpenWords : Type 0 where
{lines((f"pub {f.name} : {f.name}_word b ≤ {LARGEST}" for f in RELATED), "    ")}
  module _ (r : WordRanges b) where
    pub words-between : OpenWords → Between lowest highest (words_of b)
    unfolding lowest highest
    words-between o =
{chain((between(f) for f in COUNTS), "▹", "between_none", "        ")}

    pub words_back : (f : List Float) → counts_of (session_of (words_of b) f) ≡ words_of b
    words_back f =
{chain((known(f) for f in COUNTS), "◃", "refl", "        ")}

pub record-between : (x : Session) → CountsFit x → Ranges x.settings x.common
    → Between lowest highest (counts_of x)
unfolding lowest highest
record-between x f r =
    let s = r.settings in
    let k = r.counts in
    let o = r.orders in
    let t = r.counters in
{chain((in_ranges(f) for f in COUNTS), "▹", "between_none", "    ")}
"""


def make(put):
    put(f"{SESSION}/proofs/Fits.antt", fits())
    put(f"{SESSION}/proofs/Listed.antt", laws())
