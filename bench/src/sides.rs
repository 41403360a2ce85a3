//! A run of a problem by each side, and how it ended.

use crate::calls::{self, Lent, kind, number};
use crate::problems::{Problem, Side};

#[derive(Clone, Debug, PartialEq)]
pub struct Ended {
    pub nfe: usize,
    pub nje: usize,
    pub nlu: usize,
    pub accepted: usize,
    pub rejected: usize,
    pub h: u64,
    pub y: Vec<f64>,
}

impl Ended {
    /// What a run asks for: derivatives and reports.
    pub fn requests(&self) -> usize {
        self.nfe + self.accepted + 1
    }
}

pub const SIDES: [&str; 4] = ["kept", "fresh", "root", "powf"];

pub fn run(side: &str, problem: &Problem, lent: &mut Lent) -> Ended {
    match side {
        "kept" => ours(problem, lent, |_| ()),
        "fresh" => ours(problem, &mut Lent::new(problem.y0.len()), |_| ()),
        "root" => by_root::solve(problem),
        "powf" => by_powf::solve(problem),
        _ => panic!("{side} is not one of {SIDES:?}"),
    }
}

/// The share of our replies that find the BDF family in force: word 12 of the session, docs/SESSION.md.
pub fn stiff_share(problem: &Problem) -> f64 {
    let (mut stiff, mut all) = (0, 0);
    ours(problem, &mut Lent::new(problem.y0.len()), |lent| {
        all += 1;
        stiff += usize::from(lent.session[8 * 12] == 2);
    });
    stiff as f64 / all as f64
}

/// Our machine. The buffers may hold anything, and are not cleared.
fn ours(problem: &Problem, lent: &mut Lent, mut seen: impl FnMut(&Lent)) -> Ended {
    let Problem { side, y0, xend, rtol, atol } = problem;
    let n = y0.len();
    let mut given = vec![0.0; n];
    let mut last = y0.clone();
    let mut answer = calls::start(0.0, *xend, y0, rtol, atol, calls::defaults(), lent);
    loop {
        seen(lent);
        answer = match answer.number {
            number::DERIVATIVE => {
                side.derivative(answer.time, &lent.question[..n], &mut given);
                calls::reply(kind::DERIVATIVE, &given, 0.0, lent)
            }
            number::FIRST_REPORT | number::REPORT => {
                last.copy_from_slice(&lent.question[..n]);
                calls::reply(kind::CONTINUE, &last, answer.time, lent)
            }
            number::SUCCESS => break,
            other => panic!("the run ended by {other}"),
        };
    }
    let a = answer;
    Ended { nfe: a.nfe, nje: a.nje, nlu: a.nlu, accepted: a.accepted, rejected: a.rejected, h: a.h.to_bits(), y: last }
}

macro_rules! published {
    ($name:ident, $from:ident) => {
        mod $name {
            use super::{Ended, Problem, Side};
            use $from::dense::StepInterpolant;
            use $from::ivp::FirstOrderSystem;
            use $from::methods::{LSODA, Tolerance};
            use $from::solout::{ControlFlag, SolOut};
            use $from::status::Status;

            struct System(Side);

            impl FirstOrderSystem for System {
                #[inline]
                fn derivative(&self, x: f64, y: &[f64], f: &mut [f64]) {
                    self.0.derivative(x, y, f);
                }
            }

            struct Last(Vec<f64>);

            impl SolOut for Last {
                fn solout(
                    &mut self,
                    _: f64,
                    _: &mut f64,
                    y: &mut [f64],
                    _: Option<&StepInterpolant<'_>>,
                ) -> ControlFlag {
                    self.0.copy_from_slice(y);
                    ControlFlag::Continue
                }
            }

            fn tolerance(list: &[f64]) -> Tolerance {
                match list {
                    [one] => (*one).into(),
                    list => list.into(),
                }
            }

            pub fn solve(problem: &Problem) -> Ended {
                let Problem { side, y0, xend, rtol, atol } = problem;
                let mut last = Last(y0.clone());
                let (rtol, atol) = (tolerance(rtol), tolerance(atol));
                let r = LSODA::default().solve(&System(*side), 0.0, y0, *xend, rtol, atol, Some(&mut last)).unwrap();
                assert!(matches!(r.status, Status::Success));
                Ended {
                    nfe: r.evals.ode,
                    nje: r.evals.jac,
                    nlu: r.evals.lu,
                    accepted: r.steps.accepted,
                    rejected: r.steps.rejected,
                    h: r.h.to_bits(),
                    y: last.0,
                }
            }
        }
    };
}

published!(by_root, reference);
published!(by_powf, plain);
