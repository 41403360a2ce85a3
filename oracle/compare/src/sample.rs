//! The stored sample that the program `replay` compares under `rt ci`, without Rust: writing it, and seeing that it is
//! current. The calls of the leaves are drawn in `stored.rs`.

use crate::cases::{self, Random};
use crate::report::{Report, Tally};
use crate::{rules, stored, tables};
use reference::reach::SM1;
use std::fmt::Write;
use std::path::PathBuf;
use std::process::ExitCode;

pub const SEED: u64 = 1;

/// A kind, three arguments and the answer's pattern, as crates/replay/specs/Number.antt has them.
type Case = [u64; 5];

const HEAD: &str = "\
// The stored sample: each case a kind, three arguments and the answer's pattern.
// Made by `bash oracle/run sample`: the coefficients are those of the reference's `cfode` and first setup,
// the square roots those of the machine, the roots those of the rule as oracle/compare/src/rules.rs has it.
";

/// Both stored files, and what would be written to them now.
fn files() -> [(PathBuf, String); 2] {
    let folder = PathBuf::from(env!("CARGO_MANIFEST_DIR")).join("../../crates");
    [(folder.join("replay/src/table.rt"), text()), (folder.join("replay/src/leaves.rt"), stored::text())]
}

pub fn write() -> ExitCode {
    for (file, text) in files() {
        if let Err(error) = std::fs::write(&file, text) {
            eprintln!("compare: {}: {error}", file.display());
            return ExitCode::FAILURE;
        }
    }
    ExitCode::SUCCESS
}

/// Each word of the stored files against the word that would be written now, comments and layout aside.
pub fn compare(report: &mut Report) {
    let mut tally = Tally::new("stored sample, by words");
    for (file, now) in files() {
        let stored = std::fs::read_to_string(&file).unwrap_or_default();
        let mut stored = words(&stored);
        for (at, word) in words(&now).enumerate() {
            tally.case(stored.next() == Some(word), || format!("{}: word {} is not {word}", file.display(), at + 1));
        }
        tally.case(stored.next().is_none(), || format!("{}: more words are stored", file.display()));
    }
    report.end(tally, "");
}

fn words(text: &str) -> impl Iterator<Item = &str> {
    let code = text.lines().filter(|line| !line.trim_start().starts_with("//"));
    code.flat_map(|line| line.split(|c: char| !c.is_alphanumeric())).filter(|word| !word.is_empty())
}

fn text() -> String {
    let mut text = HEAD.to_string();
    for (name, cases) in [("ROOTS", roots()), ("SQUARE_ROOTS", square_roots()), ("COEFFICIENTS", coefficients())] {
        writeln!(text, "\npub const {name}: [u64; {}] = [", 5 * cases.len()).unwrap();
        for [kind, a, b, c, answer] in cases {
            writeln!(text, "    {kind}, 0x{a:x}, {b}, {c}, 0x{answer:016x},").unwrap();
        }
        text.push_str("];\n");
    }
    text
}

/// Every NaN has the same pattern.
pub fn pattern(x: f64) -> u64 {
    if x.is_nan() { 0x7ff8_0000_0000_0000 } else { x.to_bits() }
}

fn roots() -> Vec<Case> {
    let mut random = Random::new(SEED, "stored roots");
    let mut all = Vec::new();
    for k in 2..=13 {
        let mut numbers =
            vec![0.0, -0.0, f64::INFINITY, f64::MAX, f64::MIN_POSITIVE, f64::from_bits(1), -1.0, f64::NAN];
        numbers.extend(cases::neighbours(3f64.powi(k as i32), 1));
        for _ in 0..3 {
            let y = f64::from_bits(0x3ff << 52 | random.word() >> 12);
            numbers.extend(cases::neighbours(rules::product(y, k), 1));
        }
        numbers.extend((0..2).map(|_| random.subnormal()));
        numbers.extend((0..6).map(|_| random.number()));
        all.extend(numbers.iter().map(|&x| [0, x.to_bits(), k as u64, 0, pattern(rules::root(x, k))]));
    }
    all
}

fn square_roots() -> Vec<Case> {
    let mut random = Random::new(SEED, "stored square roots");
    let mut numbers = cases::ends();
    numbers.extend((0..52).step_by(3).map(|place| f64::from_bits(1 << place)));
    numbers.extend((1..0x7ff).step_by(50).map(|exponent| f64::from_bits(exponent << 52 | 0x000f_ffff_ffff_ffff)));
    numbers.extend(cases::hard_square_roots(3));
    numbers.extend((0..40).map(|_| random.subnormal()));
    numbers.extend((0..140).map(|_| random.number()));
    numbers.iter().map(|&x| [1, x.to_bits(), 0, 0, pattern(x.sqrt())]).collect()
}

/// All entries that `cfode` sets, the first that it leaves 0 in each order, cm1, cm2 and SM1.
fn coefficients() -> Vec<Case> {
    let mut all = Vec::new();
    for (table, orders) in [(1, tables::ORDERS), (2, tables::BDF_ORDERS)] {
        let (elco, tesco) = tables::of_family(table);
        let table = table as u64;
        for order in 1..=orders {
            let elco = &elco[tables::ELCO * (order - 1)..tables::ELCO * order];
            let tesco = &tesco[tables::TESCO * (order - 1)..tables::TESCO * order];
            let order = order as u64;
            let set = (order as usize + 2).min(tables::ELCO);
            all.extend(elco[..set].iter().enumerate().map(|(i, x)| [2, table, order, i as u64, x.to_bits()]));
            all.extend(tesco.iter().enumerate().map(|(i, x)| [3, table, order, i as u64, x.to_bits()]));
        }
    }
    let state = tables::set_up();
    let by_order = |kind, table, values: &[f64]| -> Vec<Case> {
        values.iter().enumerate().map(|(i, x)| [kind, table, i as u64 + 1, 0, x.to_bits()]).collect()
    };
    all.extend(by_order(4, 1, &state.cm1));
    all.extend(by_order(5, 1, &state.cm2));
    all.extend(by_order(6, 0, &SM1));
    all
}
