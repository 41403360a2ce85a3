//! compare [COMPARISON..] [--whole] [--size N] [--seed S]
//!
//! Runs the named comparisons, all where none is named, and exits with 1 if anything differs.
//! `sample` writes what the program `replay` compares, which `stored` holds to be that.

mod cases;
mod dense;
mod history;
mod interpolation;
mod numbers;
mod ours;
mod outcome;
mod record;
mod report;
mod rules;
mod sample;
mod sides;
mod stored;
mod sums;
mod tables;
mod vectors;

use report::Report;
use std::process::ExitCode;

/// Random numbers for each order of the root: in the gate's sample, and in the whole.
const SAMPLE: u64 = 200_000;
const WHOLE: u64 = 2_000_000;
/// Square roots for each random root.
const SQUARE_ROOTS: u64 = 10;
/// Random roots of one order for each call of a leaf.
const LEAVES: u64 = 2;
const SEED: u64 = 20260309;

const COMPARISONS: [&str; 5] = ["sums", "tables", "stored", "numbers", "leaves"];

struct Wanted {
    comparisons: Vec<String>,
    size: u64,
    seed: u64,
}

fn main() -> ExitCode {
    let words: Vec<String> = std::env::args().skip(1).collect();
    if words == ["sample"] {
        return sample::write();
    }
    match wanted(&words) {
        Ok(wanted) => run(&wanted),
        Err(message) => {
            eprintln!("compare: {message}");
            eprintln!(
                "usage: compare [{}].. [--whole] [--size N] [--seed S], or compare sample",
                COMPARISONS.join(" | ")
            );
            ExitCode::from(2)
        }
    }
}

fn wanted(words: &[String]) -> Result<Wanted, String> {
    let mut wanted = Wanted { comparisons: Vec::new(), size: SAMPLE, seed: SEED };
    let mut words = words.iter();
    while let Some(word) = words.next() {
        let mut number = || {
            let value = words.next().ok_or(format!("{word} takes a number"))?;
            value.parse().map_err(|_| format!("{value} is no number"))
        };
        match word.as_str() {
            "--whole" => wanted.size = WHOLE,
            "--size" => wanted.size = number()?,
            "--seed" => wanted.seed = number()?,
            name if COMPARISONS.contains(&name) => wanted.comparisons.push(name.to_string()),
            other => return Err(format!("there is no {other}")),
        }
    }
    if wanted.comparisons.is_empty() {
        wanted.comparisons = COMPARISONS.map(String::from).to_vec();
    }
    Ok(wanted)
}

fn run(wanted: &Wanted) -> ExitCode {
    let Wanted { comparisons, size, seed } = wanted;
    println!("compare {} --size {size} --seed {seed}", comparisons.join(" "));
    let mut report = Report::default();
    for comparison in comparisons {
        match comparison.as_str() {
            "sums" => sums::run(&mut report),
            "tables" => tables::compare(&mut report),
            "stored" => sample::compare(&mut report),
            "numbers" => {
                numbers::roots(&mut report, *size, *seed);
                numbers::square_roots(&mut report, SQUARE_ROOTS * size, *seed);
                numbers::small(&mut report, *size, *seed);
            }
            "leaves" => {
                let calls = size / LEAVES;
                vectors::compare(&mut report, calls, *seed);
                dense::compare(&mut report, calls, *seed);
                history::compare(&mut report, calls, *seed);
                interpolation::compare(&mut report, calls, *seed);
            }
            other => unreachable!("{other}"),
        }
    }
    report.finish()
}
