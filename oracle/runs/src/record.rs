//! The stored sample of whole runs: small runs of the reference with every reply they were given, as words that a
//! program can replay without Rust. Written by `runs record`; where it is stored, a sample sees that it is current.

use crate::cases::Random;
use crate::coverage::{Row, Watch};
use crate::event::{Event, first_difference};
use crate::ours;
use crate::problem::Problem;
use crate::replay::replayed;
use crate::report::{Report, Tally};
use crate::sides::{Answer, pattern};
use crate::theirs;
use std::collections::BTreeSet;
use std::path::PathBuf;

const SEED: u64 = 3;
const RUNS: usize = 30;
const WORDS: usize = 6000;
/// Of one run.
const LONGEST: usize = 1500;
/// Of a row of words.
const WIDTH: usize = 120;
/// How many runs the sample is chosen from.
const DRAWN: usize = 20_000;

const HEAD: &str = "\
// Whole runs of the reference, each with every reply that it was given, as words: counts, and floats by their patterns.
// A run is: n, the lengths of rtol and atol; the options, in the order of the struct; x0, xend, y0, rtol, atol; then
// the answer to the start, and a reply and its answer by turns until an answer ends the run.
// An answer is its number, and after it
//     100, 101    time, y
//     102         time, y (its previous time is its time)
//     103         previous time, time, count, order, y, snapshot
//     110 to 115  h, nfe, nje, nlu, total, accepted, rejected
//     1 to 12     index, value
// A reply is its kind, its time, and its numbers: n of them, n·n of kind 2.
// Made by `runs record` of oracle/runs.
";

pub fn file() -> PathBuf {
    PathBuf::from(env!("CARGO_MANIFEST_DIR")).join("../../crates/replay_runs/src/runs.rt")
}

/// The words of the sample, which our calls answer when they are replayed.
pub fn words() -> Vec<u64> {
    let words = chosen().concat();
    replayed(&words).expect("a run that was equal is replayed");
    words
}

pub fn text(words: &[u64]) -> String {
    let mut text = format!("{HEAD}\npub const RUNS: [u64; {}] = [\n", words.len());
    let mut row = String::from("   ");
    for word in words {
        // Counts as they are, patterns in base sixteen.
        let word = match word {
            0..10_000 => format!(" {word},"),
            _ => format!(" 0x{word:016x},"),
        };
        if row.len() + word.len() > WIDTH {
            text.push_str(&row);
            text.push('\n');
            row.truncate(3);
        }
        row.push_str(&word);
    }
    text.push_str(&row);
    text.push_str("\n];\n");
    text
}

/// The words of a stored file.
fn stored(text: &str) -> Vec<u64> {
    let number = |word: &str| match word.strip_prefix("0x") {
        Some(digits) => u64::from_str_radix(digits, 16),
        None => word.parse(),
    };
    let rows = text.lines().filter(|line| line.starts_with("    "));
    rows.flat_map(|line| line.split(',')).filter_map(|word| number(word.trim()).ok()).collect()
}

/// The stored sample, where there is one: replayed, and each word against the one that would be written now.
pub fn compare(report: &mut Report) {
    let Ok(text) = std::fs::read_to_string(file()) else { return };
    let (stored, now) = (stored(&text), words());
    let mut tally = Tally::new("stored runs, by words");
    let replay = replayed(&stored);
    tally.case(replay.is_ok(), || format!("{replay:?}"));
    for at in 0..stored.len().max(now.len()) {
        let (stored, now) = (stored.get(at), now.get(at));
        tally.case(stored == now, || format!("word {at}: stored {stored:?}, now {now:?}"));
    }
    report.end(tally, "");
}

/// What a run reached, with one state or with several.
type Reached = BTreeSet<(bool, Row)>;

/// Small runs, each of which reaches something that those before it do not, as long as there are such, then any.
fn chosen() -> Vec<Vec<u64>> {
    let mut random = Random::new(SEED, "stored runs");
    let mut runs: Vec<(Reached, Vec<u64>)> = Vec::new();
    for _ in 0..DRAWN {
        let problem = Problem::draw(&mut random);
        let events = theirs::run(&problem);
        let words = words_of(&problem, &events);
        // Refused starts are many and short, and compared elsewhere.
        if words.len() > LONGEST || events.len() == 1 {
            continue;
        }
        let mut watch = Watch::default();
        let ours = ours::run(&problem, &mut random, events.len(), &mut watch);
        if first_difference(&ours, &events).is_none() {
            runs.push((watch.reached.into_iter().map(|row| (problem.n() > 1, row)).collect(), words));
        }
    }
    let mut reached = Reached::new();
    let (mut chosen, mut length) = (Vec::new(), 0);
    while chosen.len() < RUNS {
        let fits = runs.iter().enumerate().filter(|(_, (_, words))| length + words.len() <= WORDS);
        // New rows for the words they cost; where there are none left, the shortest.
        let gain = |(_, (rows, words)): &(usize, &(Reached, Vec<u64>))| {
            let new = rows.difference(&reached).count();
            (new * 100_000 / (words.len() + 100), std::cmp::Reverse(words.len()))
        };
        let Some((at, _)) = fits.max_by_key(gain) else { break };
        let (rows, words) = runs.swap_remove(at);
        reached.extend(rows);
        length += words.len();
        chosen.push(words);
    }
    chosen
}

fn words_of(problem: &Problem, events: &[Event]) -> Vec<u64> {
    let mut tape = Tape(Vec::new());
    let Problem { x0, xend, y0, rtol, atol, options, side, .. } = problem;
    tape.counts(&[y0.len(), rtol.len(), atol.len()]);
    tape.counts(&[options.max_steps, options.mxordn, options.mxords, options.maxcor, options.msbp, options.mxncf]);
    tape.counts(&[options.banded, options.supplied]);
    tape.counts(&[options.has_max_step, options.has_min_step, options.has_first_step]);
    tape.floats(&[options.max_step, options.min_step, options.first_step, *x0, *xend]);
    for list in [y0, rtol, atol] {
        tape.floats(list);
    }
    let n = y0.len();
    let mut asked = 0;
    for event in events {
        tape.answer(event);
        match event {
            Event::Derivative { time, y } => {
                let mut numbers = vec![0.0; n];
                side.derivative(asked, *time, y, &mut numbers);
                tape.reply(1, 0.0, &numbers);
                asked += 1;
            }
            Event::Jacobian { time, y } => {
                let mut numbers = vec![0.0; n * n];
                side.jacobian(asked, *time, y, &mut numbers);
                tape.reply(2, 0.0, &numbers);
                asked += 1;
            }
            Event::FirstReport { previous, time, y } => tape.said(&problem.says(asked, *previous, *time, y)),
            Event::Report(report) => tape.said(&problem.says(asked, report.previous, report.time, &report.y)),
            Event::End(_) | Event::Refused { .. } | Event::Panicked | Event::Broken(_) => {}
        }
    }
    tape.0
}

struct Tape(Vec<u64>);

impl Tape {
    fn counts(&mut self, list: &[usize]) {
        self.0.extend(list.iter().map(|&count| count as u64));
    }

    fn floats(&mut self, list: &[f64]) {
        self.0.extend(list.iter().map(|&x| pattern(x)));
    }

    fn reply(&mut self, kind: usize, time: f64, numbers: &[f64]) {
        self.counts(&[kind]);
        self.floats(&[time]);
        self.floats(numbers);
    }

    fn said(&mut self, said: &crate::sides::Said) {
        let kind = match said.answer {
            Answer::Continue | Answer::XOut => 3,
            Answer::Interrupt => 4,
            Answer::Modified => 5,
        };
        self.reply(kind, said.time, &said.y);
    }

    fn answer(&mut self, event: &Event) {
        match event {
            Event::Derivative { time, y } => {
                self.counts(&[100]);
                self.floats(&[*time]);
                self.floats(y);
            }
            Event::Jacobian { time, y } => {
                self.counts(&[101]);
                self.floats(&[*time]);
                self.floats(y);
            }
            Event::FirstReport { time, y, .. } => {
                self.counts(&[102]);
                self.floats(&[*time]);
                self.floats(y);
            }
            Event::Report(report) => {
                self.counts(&[103]);
                self.floats(&[report.previous, report.time]);
                self.counts(&[report.count, report.snapshot[1] as usize]);
                self.floats(&report.y);
                self.floats(&report.snapshot);
            }
            Event::End(end) => {
                self.counts(&[end.number]);
                self.floats(&[end.h]);
                self.counts(&end.evaluations);
                self.counts(&end.steps);
            }
            Event::Refused { number, index, value } => {
                self.counts(&[*number, *index]);
                self.floats(&[*value]);
            }
            Event::Panicked | Event::Broken(_) => {}
        }
    }
}

#[cfg(test)]
mod tests {
    #[test]
    fn what_is_written_is_read_again() {
        let words = [0, 1, 9_999, 10_000, u64::MAX, 0x7ff8_0000_0000_0000, 3];
        assert_eq!(super::stored(&super::text(&words)), words);
    }
}
