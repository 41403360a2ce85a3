//! Three runs that end as no one would expect, kept so that it stays known: docs/DIFFERENCES.md. Both sides make them,
//! every event is compared, and the end must be the one that was found. It is printed with the last pose.

use crate::calls::{self, number};
use crate::cases::Random;
use crate::coverage::Watch;
use crate::event::{End, Event, first_difference};
use crate::problem::Problem;
use crate::report::{Report, Tally, all_bits};
use crate::sides::{Host, Shape, Side};
use crate::{ours, theirs};

pub fn compare(report: &mut Report) {
    robertson(report);
    relaxed(report);
    constant(report);
}

/// Robertson's problem to 4e10, with the tolerances of ODEPACK's example: a success far from every concentration.
fn robertson(report: &mut Report) {
    let problem = Problem {
        x0: 0.0,
        xend: 4.0e10,
        y0: vec![1.0, 0.0, 0.0],
        rtol: vec![1.0e-4],
        atol: vec![1.0e-6, 1.0e-10, 1.0e-6],
        options: calls::defaults(),
        side: Side::steady(Shape::Robertson),
        host: Host::Plain,
    };
    finding(report, "Robertson's problem to 4e10", &problem, |end, y| {
        end.steps[1] == 7_965 && y[0] < -1.9e7 && y[1] < -3.9e-6 && y[2] > 1.9e7
    });
}

/// At rest but for the last digits: steps are held at the limit of Adams' stability, the error estimate is noise, and
/// the family test never asks for the flag that says so. No Jacobian is made, so no step is of the other family.
fn relaxed(report: &mut Report) {
    let mut options = calls::defaults();
    options.max_steps = 1_000_000;
    let problem = Problem {
        x0: 0.0,
        xend: 10.0,
        y0: vec![1.0 + 1.0e-12],
        rtol: vec![1.0e-8],
        atol: vec![1.0e-8],
        options,
        side: Side::steady(Shape::Relaxed(1.0e4)),
        host: Host::Plain,
    };
    finding(report, "y' = -1e4(y - 1) from 1 + 1e-12 to 10", &problem, |end, _| {
        end.steps[1] == 199_982 && end.evaluations[1] == 0
    });
}

/// Where the error is 0 each order choice reaches SM1 and is held: the step stays as small as it began.
fn constant(report: &mut Report) {
    let problem = Problem {
        x0: 0.0,
        xend: 1.0,
        y0: vec![0.0],
        rtol: vec![1.0e-3],
        atol: vec![1.0e-6],
        options: calls::defaults(),
        side: Side::steady(Shape::Constant(1.0)),
        host: Host::Plain,
    };
    finding(report, "y' = 1 from 0 to 1", &problem, |end, _| end.steps == [31_623, 31_623, 0]);
}

fn finding(report: &mut Report, name: &str, problem: &Problem, as_found: impl Fn(&End, &[f64]) -> bool) {
    let mut tally = Tally::new(name);
    let ended = run(problem);
    let right = matches!(&ended, Ok((end, y)) if end.number == number::SUCCESS && as_found(end, y));
    tally.case(right, || format!("{ended:?}"));
    let told = |(end, y): (End, Vec<f64>)| {
        format!("success at {y:?} {}, steps {:?}, evaluations {:?}", all_bits(&y), end.steps, end.evaluations)
    };
    report.end(tally, ended.map(told).unwrap_or_default());
}

/// The end of a run in which both sides agree, and its last pose.
fn run(problem: &Problem) -> Result<(End, Vec<f64>), String> {
    let theirs = theirs::run(problem);
    let ours = ours::run(problem, &mut Random::new(0, "findings"), theirs.len(), &mut Watch::default());
    match (first_difference(&ours, &theirs), &theirs[..]) {
        (None, [.., Event::Report(last), Event::End(end)]) => Ok((end.clone(), last.y.clone())),
        (difference, _) => Err(difference.unwrap_or("no step was accepted".to_string())),
    }
}
