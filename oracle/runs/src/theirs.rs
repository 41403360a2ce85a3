//! The reference's side: its callbacks write down what it requests and reports.

use crate::calls::{Options, number};
use crate::event::{End, Event, Report};
use crate::outcome::returned;
use crate::problem::Problem;
use crate::sides::{Answer, Side};
use reference::dense::StepInterpolant;
use reference::error::{ConfigError, Error};
use reference::ivp::FirstOrderSystem;
use reference::matrix::{Matrix, MatrixStorage};
use reference::methods::{IntegrationResult, LSODA, Tolerance};
use reference::solout::{ControlFlag, SolOut};
use reference::solve::JacobianSource;
use reference::status::Status;
use std::cell::{Cell, RefCell};

/// A right side that writes down what it is asked.
pub struct Asked<'a> {
    side: &'a Side,
    pub events: RefCell<Vec<Event>>,
    /// Derivatives and Jacobians requested so far.
    asked: Cell<u64>,
    /// Derivatives requested in the step under way.
    pub count: Cell<usize>,
    /// The next derivative belongs to no step.
    outside: Cell<bool>,
    /// Nothing is written down: a run may be too long for that.
    quiet: bool,
}

impl<'a> Asked<'a> {
    pub fn new(side: &'a Side, outside: bool) -> Self {
        let (events, asked, count, outside) = (RefCell::default(), Cell::new(0), Cell::new(0), Cell::new(outside));
        Asked { side, events, asked, count, outside, quiet: false }
    }

    /// The number of the next request.
    fn next(&self) -> u64 {
        self.asked.replace(self.asked.get() + 1)
    }

    fn push(&self, event: Event) {
        if !self.quiet {
            self.events.borrow_mut().push(event);
        }
    }
}

impl FirstOrderSystem for Asked<'_> {
    fn derivative(&self, x: f64, y: &[f64], dydx: &mut [f64]) {
        self.push(Event::Derivative { time: x, y: y.to_vec() });
        if !self.outside.replace(false) {
            self.count.set(self.count.get() + 1);
        }
        self.side.derivative(self.next(), x, y, dydx);
    }

    fn jac(&self, x: f64, y: &[f64], j: &mut Matrix) {
        self.push(Event::Jacobian { time: x, y: y.to_vec() });
        let n = y.len();
        let mut columns = vec![0.0; n * n];
        self.side.jacobian(self.next(), x, y, &mut columns);
        for column in 0..n {
            for row in 0..n {
                j[(row, column)] = columns[row + column * n];
            }
        }
    }
}

struct Reporter<'a> {
    asked: &'a Asked<'a>,
    problem: &'a Problem,
}

impl SolOut for Reporter<'_> {
    fn solout(
        &mut self,
        xold: f64,
        x: &mut f64,
        y: &mut [f64],
        interpolant: Option<&StepInterpolant<'_>>,
    ) -> ControlFlag {
        let time = *x;
        self.asked.push(match interpolant {
            None => Event::FirstReport { previous: xold, time, y: y.to_vec() },
            Some(interpolant) => Event::Report(Box::new(Report {
                previous: xold,
                time,
                y: y.to_vec(),
                count: self.asked.count.get(),
                snapshot: interpolant.to_segment().cont,
                poses: poses(xold, time, y.len(), |at, pose| interpolant.interpolate(at, pose)),
            })),
        });
        let said = self.problem.says(self.asked.asked.get(), xold, time, y);
        y.copy_from_slice(&said.y);
        *x = said.time;
        self.asked.count.set(0);
        self.asked.outside.set(said.answer == Answer::Modified);
        match said.answer {
            Answer::Continue => ControlFlag::Continue,
            Answer::XOut => ControlFlag::XOut(said.time),
            Answer::Interrupt => ControlFlag::Interrupt,
            Answer::Modified => ControlFlag::ModifiedSolution,
        }
    }
}

/// The poses that are asked for at a report: at both ends of the step, within it, outside, and where there is no time.
/// What an interpolation leaves as it was is 0.25.
pub fn poses(previous: f64, time: f64, n: usize, interpolate: impl Fn(f64, &mut [f64])) -> Vec<f64> {
    let part = |s: f64| previous + s * (time - previous);
    let signalling = f64::from_bits(0xfff0_0000_0000_0001);
    let times = [previous, part(0.375), part(0.9), time, part(-0.5), part(3.0), f64::NAN, signalling, f64::INFINITY];
    let mut poses = vec![0.25; times.len() * n];
    times.iter().zip(poses.chunks_mut(n)).for_each(|(&at, pose)| interpolate(at, pose));
    poses
}

pub fn run(problem: &Problem) -> Vec<Event> {
    let asked = Asked::new(&problem.side, true);
    let last = solve(problem, &asked);
    asked.push(last);
    asked.events.into_inner()
}

/// How the run ends, and nothing else.
pub fn last(problem: &Problem) -> Event {
    solve(problem, &Asked { quiet: true, ..Asked::new(&problem.side, true) })
}

fn solve(problem: &Problem, asked: &Asked) -> Event {
    let mut reporter = Reporter { asked, problem };
    let solver = solver(&problem.options);
    let Problem { x0, y0, xend, rtol, atol, .. } = problem;
    let outcome =
        returned(|| solver.solve(asked, *x0, y0, *xend, tolerance(rtol), tolerance(atol), Some(&mut reporter)));
    match outcome {
        Some(Ok(result)) => Event::End(end(&result)),
        Some(Err(error)) => refusal(&error, problem),
        None => Event::Panicked,
    }
}

fn solver(options: &Options) -> LSODA {
    let given = |has: usize, step: f64| (has != 0).then_some(step);
    LSODA {
        max_steps: options.max_steps,
        max_step: given(options.has_max_step, options.max_step),
        min_step: given(options.has_min_step, options.min_step),
        first_step: given(options.has_first_step, options.first_step),
        jac_storage: if options.banded == 0 { MatrixStorage::Full } else { MatrixStorage::Banded { ml: 0, mu: 0 } },
        jacobian_source: match options.supplied {
            0 => JacobianSource::Auto,
            _ => JacobianSource::UserProvided,
        },
        mxordn: options.mxordn,
        mxords: options.mxords,
        maxcor: options.maxcor,
        msbp: options.msbp,
        mxncf: options.mxncf,
    }
}

/// A list of 1 is for all states.
pub fn tolerance(list: &[f64]) -> Tolerance {
    match list {
        [one] => (*one).into(),
        list => list.into(),
    }
}

pub fn status(status: Status) -> usize {
    match status {
        Status::Success => number::SUCCESS,
        Status::UserInterrupt => number::INTERRUPTED,
        Status::NeedLargerNMax => number::NEEDS_MORE_STEPS,
        Status::StepSizeTooSmall => number::TOO_SMALL,
        Status::PoorConvergence => number::POOR,
        Status::ProbablyStiff | Status::SingularMatrix => panic!("{status:?} is never given here"),
    }
}

fn end(result: &IntegrationResult) -> End {
    End {
        number: status(result.status),
        h: result.h,
        evaluations: [result.evals.ode, result.evals.jac, result.evals.lu],
        steps: [result.steps.total, result.steps.accepted, result.steps.rejected],
    }
}

/// The reference's errors by the numbers of our refusals.
fn refusal(error: &Error, problem: &Problem) -> Event {
    let refused = |number, index, value| Event::Refused { number, index, value };
    let Error::Config(error) = error else { panic!("{error:?} is never given here") };
    match error {
        ConfigError::MustBePositive { parameter: "max_steps", .. } => refused(5, 0, 0.0),
        ConfigError::MustBePositive { parameter: "maxcor", .. } => refused(6, 0, 0.0),
        ConfigError::MustBePositive { parameter: "mxordn/mxords", .. } => refused(7, 0, 0.0),
        ConfigError::OutOfRange { .. } => refused(8, 0, 0.0),
        ConfigError::NegativeTolerance { kind: "relative", index, .. } => refused(9, *index, 0.0),
        ConfigError::NegativeTolerance { kind: "absolute", index, .. } => refused(10, *index, 0.0),
        ConfigError::NegativeTolerance { kind: "effective", index, .. } => refused(12, *index, 0.0),
        // A computed step where end minus start is a NaN: its sign is that of the NaN there, and + here.
        ConfigError::InvalidStepSize { value, .. }
            if problem.options.has_first_step == 0 && (problem.xend - problem.x0).is_nan() =>
        {
            refused(11, 0, value.abs())
        }
        ConfigError::InvalidStepSize { value, .. } => refused(11, 0, *value),
        other => panic!("{other:?} is never given here"),
    }
}
