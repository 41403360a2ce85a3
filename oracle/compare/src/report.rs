//! What a comparison found: a line for each, the first inputs that differ as bit patterns, and the exit status.

use std::fmt::Display;
use std::process::ExitCode;

/// How many differing inputs of one comparison are printed.
const SHOWN: u64 = 5;

/// Equal bits, or both a NaN.
pub fn same(a: f64, b: f64) -> bool {
    a.to_bits() == b.to_bits() || (a.is_nan() && b.is_nan())
}

/// A number as its bit pattern.
pub fn bits(x: f64) -> String {
    format!("{:016x}", x.to_bits())
}

/// The same for each number of two lists of one length.
pub fn all_same(a: &[f64], b: &[f64]) -> bool {
    a.len() == b.len() && a.iter().zip(b).all(|(&a, &b)| same(a, b))
}

/// A list as its bit patterns.
pub fn all_bits(list: &[f64]) -> String {
    let patterns: Vec<String> = list.iter().map(|&x| bits(x)).collect();
    format!("[{}]", patterns.join(" "))
}

/// One comparison under way.
pub struct Tally {
    name: String,
    compared: u64,
    differ: u64,
}

impl Tally {
    pub fn new(name: impl Into<String>) -> Self {
        Tally { name: name.into(), compared: 0, differ: 0 }
    }

    /// Counts one case; where ours is another number than theirs, says at which input.
    pub fn number(&mut self, ours: f64, theirs: f64, input: impl FnOnce() -> String) {
        self.case(same(ours, theirs), || format!("{}: ours {}, theirs {}", input(), bits(ours), bits(theirs)));
    }

    /// Counts one case of any kind.
    pub fn case(&mut self, agree: bool, tell: impl FnOnce() -> String) {
        self.compared += 1;
        if !agree {
            self.differ += 1;
            if self.differ <= SHOWN {
                println!("  {}: {}", self.name, tell());
            }
        }
    }
}

/// All comparisons of one run.
#[derive(Default)]
pub struct Report {
    compared: u64,
    differ: u64,
}

impl Report {
    /// Prints the comparison's line, with a remark if there is one, and adds it up.
    pub fn end(&mut self, tally: Tally, remark: impl Display) {
        let remark = remark.to_string();
        let remark = if remark.is_empty() { remark } else { format!(" ({remark})") };
        println!("{}: {} compared, {} differ{remark}", tally.name, tally.compared, tally.differ);
        self.compared += tally.compared;
        self.differ += tally.differ;
    }

    /// The last line, and the exit status: 1 if anything differs, or if nothing was compared.
    pub fn finish(self) -> ExitCode {
        println!("in all: {} compared, {} differ", self.compared, self.differ);
        if self.differ == 0 && self.compared > 0 { ExitCode::SUCCESS } else { ExitCode::FAILURE }
    }
}
