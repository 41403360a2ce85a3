//! Our calls beside the published solver: whole runs event by event, single steps from crafted states, refused and
//! damaged calls.
//!
//!     runs whole | settings | findings | steps | refusals | coverage | all  [--count N] [--seed S]
//!     runs sample                                     all of it in seconds
//!     runs record                                     prints the stored sample of whole runs
//!
//! Each comparison ends in a line with how many were compared and how many differ; the first inputs that differ are
//! printed. The exit status is 1 if anything differs or a row of the coverage table is empty.

#[allow(dead_code)]
#[path = "../../compare/src/cases.rs"]
mod cases;
#[path = "../../compare/src/outcome.rs"]
mod outcome;
#[allow(dead_code)]
#[path = "../../compare/src/report.rs"]
mod report;

mod calls;
mod coverage;
mod craft;
mod damage;
mod event;
mod findings;
mod fixed;
mod live;
mod mirror;
mod model;
mod ours;
mod problem;
mod record;
mod refusals;
mod replay;
mod session;
mod settings;
mod sides;
mod steps;
mod theirs;
mod whole;

use coverage::Coverage;
use report::Report;
use std::process::ExitCode;

const SEED: u64 = 20260309;
/// Whole runs; there are twice as many crafted steps and ten times as many damaged calls.
const COUNT: u64 = 102_000;
const SAMPLE: u64 = 10_000;
/// How often each pair of refusals is provoked.
const PAIRS: u64 = 100;

const WHAT: [&str; 9] = ["whole", "settings", "findings", "steps", "refusals", "coverage", "all", "sample", "record"];

struct Wanted {
    what: String,
    count: u64,
    seed: u64,
}

fn main() -> ExitCode {
    assert!(session::agrees_with_page(), "docs/SESSION.md has other fields than src/session.rs");
    let words: Vec<String> = std::env::args().skip(1).collect();
    match wanted(&words) {
        Ok(wanted) if wanted.what == "record" => {
            print!("{}", record::text(&record::words()));
            ExitCode::SUCCESS
        }
        Ok(wanted) => run(&wanted),
        Err(message) => {
            eprintln!("runs: {message}");
            eprintln!("usage: runs [{}] [--count N] [--seed S]", WHAT.join(" | "));
            ExitCode::from(2)
        }
    }
}

fn wanted(words: &[String]) -> Result<Wanted, String> {
    let (mut what, mut count, mut seed) = (None, None, SEED);
    let mut words = words.iter();
    while let Some(word) = words.next() {
        let mut number = || {
            let value = words.next().ok_or(format!("{word} takes a number"))?;
            value.parse::<u64>().map_err(|_| format!("{value} is no number"))
        };
        match word.as_str() {
            "--count" => count = Some(number()?),
            "--seed" => seed = number()?,
            what_is if WHAT.contains(&what_is) => what = Some(word.clone()),
            other => return Err(format!("there is no {other}")),
        }
    }
    let what = what.unwrap_or("all".to_string());
    let usual = match what.as_str() {
        "sample" => SAMPLE,
        "steps" => 2 * COUNT,
        "refusals" => 10 * COUNT,
        _ => COUNT,
    };
    Ok(Wanted { what, count: count.unwrap_or(usual), seed })
}

fn run(wanted: &Wanted) -> ExitCode {
    let Wanted { what, count, seed } = wanted;
    let (count, seed) = (*count, *seed);
    println!("runs {what} --count {count} --seed {seed}");
    let mut report = Report::default();
    let mut coverage = Coverage::default();
    match what.as_str() {
        "whole" => whole::compare(&mut report, &mut coverage, count, seed),
        "settings" => settings::compare(&mut report, &mut coverage, count, seed),
        "findings" => findings::compare(&mut report),
        "steps" => steps::compare(&mut report, &mut coverage, count, seed),
        "refusals" => refused(&mut report, count, seed),
        _ => {
            whole::compare(&mut report, &mut coverage, count, seed);
            settings::compare(&mut report, &mut coverage, count, seed);
            steps::compare(&mut report, &mut coverage, 2 * count, seed);
        }
    }
    if what == "all" || what == "sample" {
        findings::compare(&mut report);
        refused(&mut report, 10 * count, seed);
        record::compare(&mut report);
    }
    let mut reached = true;
    if matches!(what.as_str(), "all" | "sample" | "coverage") {
        if what != "sample" {
            coverage.print();
        }
        let (rows, empty) = coverage.rows();
        println!("coverage: {rows} rows, {empty} empty");
        reached = empty == 0;
    }
    let outcome = report.finish();
    if reached { outcome } else { ExitCode::FAILURE }
}

fn refused(report: &mut Report, count: u64, seed: u64) {
    refusals::compare(report, PAIRS, seed);
    damage::compare(report, count, seed);
}
