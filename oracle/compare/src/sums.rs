//! The sums worked by hand in the port's scope, and its coefficient gap, run on the reference: they show that it was
//! built right.

use crate::outcome::returned;
use crate::report::{Report, Tally, same};
use crate::sides::Scripted;
use crate::tables;
use reference::dense::StepInterpolant;
use reference::error::{ConfigError, Error};
use reference::methods::{IntegrationResult, LSODA};
use reference::reach::{self, Buffers};
use reference::root::PowerByRoot;
use reference::solout::{ControlFlag, SolOut};
use reference::status::Status;

pub fn run(report: &mut Report) {
    let mut tally = Tally::new("sums worked by hand, on the reference");
    let mut sum = |name: &str, right: bool| tally.case(right, || format!("({name}) comes out otherwise"));
    let (adams, _) = tables::of_family(1);
    let (_, bdf) = tables::of_family(2);
    sum("1", adams[..2] == [1.0, 1.0] && adams[13..16] == [0.5, 1.0, 0.5]);
    sum("2", bdf[3..6] == [1.0, 4.5, 6.0]);
    sum("3", reach::vmnorm(&[f64::NAN, 3.0], &[1.0, 2.0]) == 6.0);
    sum("4", solved());
    sum("5", reach::dense_lu_factor(&mut [0.0], 1, &mut [0]).is_err());
    sum("5, NaN", reach::dense_lu_factor(&mut [f64::NAN], 1, &mut [0]).is_ok());
    sum("6", 8f64.power_by_root(1.0 / 3.0) == 2.0 && 1f64.power_by_root(1.0 / 13.0) == 1.0);
    sum("7", interpolated(0.5) == 1.75 && interpolated(0.0) == 9.0);

    let eight = Problem { y0: 2.0, rtol: 0.5, atol: 0.0, end: 1.0, first: Some(1.0), solver: LSODA::default() };
    let end = eight.run(&[0.0]);
    sum("8", end.is(Status::Success, 1.0, [1, 1, 0]) && end.derivatives() == 2);
    let end = eight.run(&[0.0, f64::NAN]);
    sum("9", end.status() == Some(Status::Success) && end.y.is_nan());
    let ten = Problem { end: 2.0, solver: LSODA { max_steps: 1, ..LSODA::default() }, ..eight.clone() };
    sum("10", ten.run(&[0.0]).status() == Some(Status::NeedLargerNMax));
    let solver = LSODA { maxcor: 1, mxncf: 1, ..LSODA::default() };
    let eleven = Problem { y0: 0.0, rtol: 0.0, atol: 1.0, solver, ..eight.clone() };
    let end = eleven.run(&[0.0, 100.0]);
    sum("11", end.status() == Some(Status::PoorConvergence) && end.steps() == Some([0, 0, 0]));
    let solver = LSODA { maxcor: 3, mxncf: 1, min_step: Some(1.0), ..LSODA::default() };
    let end = Problem { solver, ..eleven }.run(&[0.0, 100.0, 100.0]);
    sum("12", end.status() == Some(Status::StepSizeTooSmall) && end.steps() == Some([0, 0, 1]));

    let nothing = Problem { end: 0.0, first: None, ..eight.clone() };
    let refused = matches!(nothing.run(&[0.0]).result, Err(Error::Config(ConfigError::InvalidStepSize { .. })));
    sum("start equal to end, no first step", refused);
    let nothing = Problem { first: Some(1.0), ..nothing };
    sum("start equal to end", nothing.run(&[0.0]).is(Status::Success, 0.0, [0, 0, 0]));
    let solver = LSODA { min_step: Some(0.5), ..LSODA::default() };
    let least = Problem { solver, ..nothing };
    sum("start equal to end, least step", least.run(&[0.0]).is(Status::Success, 0.5, [0, 0, 0]));
    let solver = LSODA { min_step: Some(2.0), ..LSODA::default() };
    let end = Problem { solver, ..eight }.run(&[0.0]);
    sum("8, least step 2", end.status() == Some(Status::NeedLargerNMax) && end.step() == Some(0.0));
    sum("coefficient gap", coefficient_gap());
    report.end(tally, "");
}

/// Family 2, accepted at order 6 with icount below 0: the reference panics, with the accepted count raised.
fn coefficient_gap() -> bool {
    let mut state = tables::set_up();
    state.meth = 2;
    state.miter = 2;
    (state.nq, state.l) = (6, 7);
    (state.h, state.hold, state.icount, state.jstart) = (1.0, 1.0, 0, 1);
    reach::stoda_reset(&mut state);
    let mut work = Buffers::new(1, 13);
    work.ewt[0] = 1.0;
    work.wm[2] = 1.0;
    let (rtol, atol) = (0.5.into(), 0.5.into());
    let side = Scripted::new(&[0.0]);
    let step = returned(|| reach::stoda(&side, &mut [0.0], &rtol, &atol, &mut work, &mut state));
    step.is_none() && state.nst == 1 && state.icount == -1
}

fn solved() -> bool {
    let (mut a, mut pivots, mut b) = ([0.0, 2.0, 1.0, 3.0], [0; 2], [1.0, 5.0]);
    let factored = reach::dense_lu_factor(&mut a, 2, &mut pivots).is_ok() && a == [2.0, 0.0, 3.0, 1.0];
    factored && reach::dense_lu_solve(&a, 2, &pivots, &mut b).is_ok() && b == [1.0, 1.0]
}

/// The pose of sum (7) at 0.75, or 9 where it is left as it was.
fn interpolated(h: f64) -> f64 {
    let mut pose = [9.0];
    LSODA::interpolate(0.75, &mut pose, &[1.0, 1.0, 1.0, h, h, f64::EPSILON, 2.0, 0.5], 0.5, h);
    pose[0]
}

/// One state, from time 0.
#[derive(Clone)]
struct Problem {
    y0: f64,
    rtol: f64,
    atol: f64,
    end: f64,
    first: Option<f64>,
    solver: LSODA,
}

struct End {
    result: Result<IntegrationResult, Error>,
    y: f64,
}

/// Keeps the last y that was reported.
struct Last(f64);

impl SolOut for Last {
    fn solout(&mut self, _: f64, _: &mut f64, y: &mut [f64], _: Option<&StepInterpolant<'_>>) -> ControlFlag {
        self.0 = y[0];
        ControlFlag::Continue
    }
}

impl Problem {
    fn run(&self, derivatives: &[f64]) -> End {
        let solver = LSODA { first_step: self.first, ..self.solver.clone() };
        let side = Scripted::new(derivatives);
        let mut last = Last(self.y0);
        let (rtol, atol) = (self.rtol.into(), self.atol.into());
        let result = solver.solve(&side, 0.0, &[self.y0], self.end, rtol, atol, Some(&mut last));
        End { result, y: last.0 }
    }
}

impl End {
    fn status(&self) -> Option<Status> {
        self.result.as_ref().ok().map(|r| r.status)
    }

    fn step(&self) -> Option<f64> {
        self.result.as_ref().ok().map(|r| r.h)
    }

    fn steps(&self) -> Option<[usize; 3]> {
        self.result.as_ref().ok().map(|r| [r.steps.total, r.steps.accepted, r.steps.rejected])
    }

    fn derivatives(&self) -> usize {
        self.result.as_ref().map_or(0, |r| r.evals.ode)
    }

    fn is(&self, status: Status, h: f64, steps: [usize; 3]) -> bool {
        self.status() == Some(status) && self.step().is_some_and(|s| same(s, h)) && self.steps() == Some(steps)
    }
}
