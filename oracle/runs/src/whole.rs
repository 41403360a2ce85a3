//! Whole runs: the same problem for the reference's `solve` and for our calls, every event compared.

use crate::calls;
use crate::cases::{self, Random};
use crate::coverage::{Column, Coverage, Watch};
use crate::event::{Event, first_difference};
use crate::problem::Problem;
use crate::report::{Report, Tally};
use crate::sides::{Host, Shape, Side};
use crate::{ours, theirs};

pub fn compare(report: &mut Report, coverage: &mut Coverage, size: u64, seed: u64) {
    let mut random = Random::new(seed, "whole runs");
    let mut runs = Runs::new("whole runs");
    for _ in 0..size {
        let problem = Problem::draw(&mut random);
        runs.one(&problem, &mut random, coverage);
    }
    runs.end(report);
    let mut runs = Runs::new("whole runs, each argument at its limits");
    for _ in 0..size / 1000 + 5 {
        let problem = Problem::draw(&mut random);
        for argument in ARGUMENTS {
            for limit in cases::ends() {
                let mut problem = problem.clone();
                argument(&mut problem, limit);
                runs.one(&problem, &mut random, coverage);
            }
        }
    }
    runs.end(report);
    let mut runs = Runs::new("whole runs of up to 3,000 steps that change the family often");
    for _ in 0..size / 100 + 20 {
        let problem = Problem::relapsing(&mut random);
        runs.one(&problem, &mut random, coverage);
    }
    runs.end(report);
    longest(report, (10 * size).clamp(1000, 1_000_000));
}

/// A run of so many steps, by its end: at the most that a start accepts, icount comes to the least that 13 lets pass.
fn longest(report: &mut Report, steps: u64) {
    let mut options = calls::defaults();
    options.max_steps = steps as usize;
    (options.has_max_step, options.max_step) = (1, 1.0 / steps as f64);
    let side = Side::steady(Shape::Constant(1.0));
    let (rtol, atol) = (vec![1.0e-3], vec![1.0e-3]);
    let problem = Problem { x0: 0.0, xend: 2.0, y0: vec![1.0], rtol, atol, options, side, host: Host::Plain };
    let mut tally = Tally::new(format!("a run of {steps} steps"));
    let (ours, theirs) = (ours::last(&problem), theirs::last(&problem));
    let all = matches!(&theirs, Event::End(end) if end.steps[1] as u64 == steps);
    tally.case(all && ours.is(&theirs), || format!("ours {ours:?}, theirs {theirs:?}"));
    report.end(tally, "");
}

const ARGUMENTS: [fn(&mut Problem, f64); 10] = [
    |problem, x| problem.x0 = x,
    |problem, x| problem.xend = x,
    |problem, x| problem.y0[0] = x,
    |problem, x| problem.y0.fill(x),
    |problem, x| problem.rtol[0] = x,
    |problem, x| problem.atol[0] = x,
    |problem, x| (problem.rtol[0], problem.atol[0]) = (x, x),
    |problem, x| (problem.options.has_max_step, problem.options.max_step) = (1, x),
    |problem, x| (problem.options.has_min_step, problem.options.min_step) = (1, x),
    |problem, x| (problem.options.has_first_step, problem.options.first_step) = (1, x),
];

/// Runs of one comparison.
pub struct Runs {
    tally: Tally,
    runs: u64,
    events: usize,
}

impl Runs {
    pub fn new(name: &str) -> Self {
        Runs { tally: Tally::new(name), runs: 0, events: 0 }
    }

    pub fn one(&mut self, problem: &Problem, random: &mut Random, coverage: &mut Coverage) {
        self.against(&theirs::run(problem), problem, random, coverage);
    }

    /// Our run of the problem against these events.
    pub fn against(&mut self, theirs: &[Event], problem: &Problem, random: &mut Random, coverage: &mut Coverage) {
        let mut watch = Watch::default();
        let ours = ours::run(problem, random, theirs.len(), &mut watch);
        coverage.add(Column::Whole, watch);
        let run = self.runs;
        self.runs += 1;
        self.events += theirs.len();
        let difference = first_difference(&ours, theirs);
        self.tally.case(difference.is_none(), || format!("run {run}, {}\n    {problem:?}", difference.unwrap()));
    }

    /// A run that the reference did not make as it should.
    pub fn broken(&mut self, tell: impl FnOnce() -> String) {
        self.tally.case(false, tell);
    }

    pub fn end(self, report: &mut Report) {
        report.end(self.tally, format!("{} events", self.events));
    }
}
