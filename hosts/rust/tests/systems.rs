//! Right sides: Jacobians in every driver, functions that fail, and the buffers that they fill.

mod common;

use std::convert::Infallible;
use std::error::Error as _;
use std::fmt;

use common::{breaking, problem, robertson, robertson_jacobian, swinging};
use raimsklo::{solve, solve_dense, steps, Control, Error, Finished, Incomplete, Problem, RightSide, System};

#[derive(Clone, Debug, PartialEq)]
struct RigGone(u32);

impl fmt::Display for RigGone {
    fn fmt(&self, f: &mut fmt::Formatter<'_>) -> fmt::Result {
        write!(f, "rig {} is gone", self.0)
    }
}

impl std::error::Error for RigGone {}

fn chemistry() -> Problem<'static> {
    problem(40.0, &[1.0, 0.0, 0.0], &[1e-6], &[1e-8, 1e-12, 1e-8])
}

/// Both functions count on the same thing, and its time is limited.
struct Kettle {
    calls: (usize, usize),
    until: f64,
}

impl System for Kettle {
    type Error = RigGone;

    fn derivative(&mut self, time: f64, y: &[f64], f: &mut [f64]) -> Result<(), RigGone> {
        self.calls.0 += 1;
        robertson(time, y, f);
        if time <= self.until {
            Ok(())
        } else {
            Err(RigGone(7))
        }
    }

    fn has_jacobian(&self) -> bool {
        true
    }

    fn jacobian(&mut self, time: f64, y: &[f64], columns: &mut [f64]) -> Result<(), RigGone> {
        self.calls.1 += 1;
        robertson_jacobian(time, y, columns);
        Ok(())
    }
}

#[test]
fn every_driver_takes_a_jacobian() {
    let problem = chemistry();
    let system = RightSide::new(robertson).jacobian(robertson_jacobian);
    let mut reported = vec![];
    let finished = problem
        .solve(system, |step| {
            reported.push((step.time, step.y.to_vec()));
            Control::Continue
        })
        .unwrap();
    // no derivative goes into a Jacobian by differences
    assert!(finished.nje > 0 && finished.nfe < solve(&problem, robertson, |_| Control::Continue).unwrap().nfe);

    let mut run = problem.steps(system).unwrap();
    let taken: Vec<_> = run.by_ref().map(|step| step.unwrap()).map(|step| (step.time, step.y)).collect();
    assert_eq!((run.finished(), &taken), (Some(finished), &reported));
    let (dense_finished, curve) = problem.solve_dense(system).unwrap();
    let kept: Vec<_> = curve.steps().iter().map(|step| (step.time, step.y.clone())).collect();
    assert_eq!((dense_finished, kept), (finished, reported));

    let mut kettle = Kettle { calls: (0, 0), until: f64::INFINITY };
    assert_eq!(problem.solve(&mut kettle, |_| Control::Continue).unwrap(), finished);
    assert_eq!(kettle.calls, (finished.nfe, finished.nje));
    let by_name: Box<dyn System<Error = RigGone>> = Box::new(kettle);
    assert_eq!(problem.solve_dense(by_name).unwrap().0, finished);
}

/// Stiff, and with a derivative alone: all else is the trait's.
struct Plain;

impl System for Plain {
    type Error = Infallible;

    fn derivative(&mut self, time: f64, y: &[f64], f: &mut [f64]) -> Result<(), Infallible> {
        robertson(time, y, f);
        Ok(())
    }
}

#[test]
fn what_a_system_says_goes_before_the_options() {
    // a Jacobian is wanted in this run, and where the system has none it is taken by differences
    let whole = chemistry();
    let asking = Problem { options: whole.options.with_jacobian(), ..whole };
    let finished = solve(&whole, robertson, |_| Control::Continue).unwrap();
    assert!(finished.nje > 0);
    assert_eq!(solve(&asking, robertson, |_| Control::Continue), Ok(finished));
    assert_eq!(asking.solve_dense(Plain).unwrap().0, finished);
    let mut run = asking.steps(Plain).unwrap();
    assert!(run.by_ref().all(|step| step.is_ok()) && run.finished() == Some(finished));

    let supplied = RightSide::new(robertson).jacobian(robertson_jacobian);
    let finished = whole.solve(supplied, |_| Control::Continue);
    assert_eq!(asking.solve(supplied, |_| Control::Continue), finished);
}

#[test]
fn an_error_of_the_host_comes_back_as_it_was() {
    let problem = chemistry();
    let mut times = vec![];
    let error = problem
        .solve(&mut Kettle { calls: (0, 0), until: 2.0 }, |step| {
            times.push(step.time);
            Control::Continue
        })
        .unwrap_err();
    assert_eq!(error, Error::Host(RigGone(7)));
    assert_eq!(error.to_string(), "stopped by the host: rig 7 is gone");
    assert_eq!(error.source().unwrap().downcast_ref(), Some(&RigGone(7)));

    let mut run = problem.steps(Kettle { calls: (0, 0), until: 2.0 }).unwrap();
    let taken: Vec<f64> = run.by_ref().map_while(Result::ok).map(|step| step.time).collect();
    assert!(run.next().is_none() && run.finished().is_none());
    let cut = problem.solve_dense(Kettle { calls: (0, 0), until: 2.0 }).unwrap_err();
    assert_eq!(cut.to_string(), "stopped by the host: rig 7 is gone");
    assert_eq!(cut.source().unwrap().downcast_ref(), Some(&RigGone(7)));
    let Incomplete { error, curve } = cut;
    assert_eq!(error, Error::Host(RigGone(7)));
    let kept: Vec<f64> = curve.steps().iter().map(|step| step.time).collect();
    assert!(times.len() > 10 && times == taken && times == kept && curve.at(times[9]).is_some());
}

#[test]
fn closures_fail_or_not() {
    let problem = chemistry();
    let gone = |_: f64, _: &[f64], _: &mut [f64]| Err(RigGone(1));
    let host = |number| Error::Host(RigGone(number));
    assert_eq!(solve(&problem, gone, |_| Control::Continue), Err(host(1)));
    assert_eq!(steps(&problem, gone).unwrap().next().unwrap(), Err(host(1)));
    assert_eq!(solve_dense(&problem, gone).unwrap_err().error, host(1));

    // the derivative names the error that the Jacobian and the report may have
    let fine = |time: f64, y: &[f64], f: &mut [f64]| {
        robertson(time, y, f);
        Ok(())
    };
    let system = RightSide::new(fine).jacobian(|_, _, _| Err(RigGone(2)));
    assert_eq!(problem.solve(system, |_| Control::Continue), Err(host(2)));
    let system = RightSide::new(fine).jacobian(robertson_jacobian);
    let mut reports = 0;
    let report = |_: &raimsklo::Step| {
        reports += 1;
        if reports < 5 {
            Ok(Control::Continue)
        } else {
            Err(RigGone(3))
        }
    };
    assert_eq!(problem.solve(system, report), Err(host(3)));
    assert_eq!(reports, 5);
}

/// The whole chemistry by a derivative that fails with this error, or does not.
fn with_error<E>(error: Option<E>) -> Result<Finished, Error<E>> {
    let mut error = error;
    let derivative = |time: f64, y: &[f64], f: &mut [f64]| {
        robertson(time, y, f);
        error.take().map_or(Ok(()), Err)
    };
    solve(&chemistry(), derivative, |_| Control::Continue)
}

type Boxed = Box<dyn std::error::Error>;
type BoxedSync = Box<dyn std::error::Error + Send + Sync>;

#[test]
fn question_mark_takes_a_boxed_error() {
    // an error need not be a `std::error::Error`: texts and boxes are none
    fn text(error: Option<&'static str>) -> Result<usize, Boxed> {
        Ok(with_error(error).map_err(Error::into_boxed)?.accepted)
    }
    fn boxed(error: Option<Boxed>) -> Result<usize, Boxed> {
        Ok(with_error(error).map_err(Error::into_boxed)?.accepted)
    }
    fn text_sync(error: Option<String>) -> Result<usize, BoxedSync> {
        Ok(with_error(error).map_err(Error::into_boxed_sync)?.accepted)
    }
    fn boxed_sync(error: Option<BoxedSync>) -> Result<usize, BoxedSync> {
        Ok(with_error(error).map_err(Error::into_boxed_sync)?.accepted)
    }
    let accepted = solve(&chemistry(), robertson, |_| Control::Continue).unwrap().accepted;
    assert_eq!((text(None).unwrap(), boxed(None).unwrap()), (accepted, accepted));
    assert_eq!((text_sync(None).unwrap(), boxed_sync(None).unwrap()), (accepted, accepted));
    assert_eq!(text(Some("no rig")).unwrap_err().to_string(), "no rig");
    assert_eq!(text_sync(Some("no rig".into())).unwrap_err().to_string(), "no rig");
    assert_eq!(boxed(Some(RigGone(4).into())).unwrap_err().downcast_ref(), Some(&RigGone(4)));
    assert_eq!(boxed_sync(Some(RigGone(5).into())).unwrap_err().downcast_ref(), Some(&RigGone(5)));

    // the other drivers
    fn rows(problem: &Problem) -> Result<usize, Boxed> {
        let mut rows = 0;
        for step in steps(problem, |_, _, _| Err("no rig")).map_err(Error::into_boxed)? {
            rows += step.map_err(Error::into_boxed)?.y.len();
        }
        Ok(rows)
    }
    fn curve(problem: &Problem) -> Result<f64, Boxed> {
        let (_, curve) = solve_dense(problem, |_, _, _| Err("no rig")).map_err(Incomplete::into_boxed)?;
        Ok(curve.span().1)
    }
    fn curve_sync(problem: &Problem) -> Result<f64, BoxedSync> {
        let (_, curve) = solve_dense(problem, |_, _, _| Err("no rig")).map_err(Incomplete::into_boxed_sync)?;
        Ok(curve.span().1)
    }
    let whole = chemistry();
    assert_eq!(rows(&whole).unwrap_err().to_string(), "no rig");
    assert_eq!(curve(&whole).unwrap_err().to_string(), "no rig");
    assert_eq!(curve_sync(&whole).unwrap_err().to_string(), "no rig");

    // what is not the host's is the driver's own error in every box
    let refused = rows(&Problem { rtol: &[], ..whole }).unwrap_err();
    assert_eq!(refused.to_string(), "refused (2): a tolerance list is neither 1 long nor as long as y0");
    assert!(matches!(refused.downcast_ref(), Some(Error::<Infallible>::Refused(_))));
    let nan = curve(&Problem { atol: &[f64::NAN], ..whole }).unwrap_err();
    assert_eq!(nan.downcast_ref(), Some(&Error::<Infallible>::NanTolerance { list: "atol", index: 0 }));
    let refused = curve_sync(&Problem { rtol: &[], ..whole }).unwrap_err();
    assert!(matches!(refused.downcast_ref(), Some(Error::<Infallible>::Refused(_))));
    let breaks = |time: f64, y: &[f64], f: &mut [f64]| {
        breaking(time, y, f);
        Ok::<(), String>(())
    };
    let lost = problem(1.0, &[1.0], &[1e-3], &[1e-6]);
    let ended = solve(&lost, breaks, |_| Control::Continue).unwrap_err().into_boxed_sync();
    assert!(ended.downcast_ref::<Error>().unwrap().finished().is_some());
}

#[test]
fn a_forgotten_entry_is_no_old_number() {
    // the second derivative is written at the first call alone
    let mut calls = 0;
    let forgetful = |_: f64, y: &[f64], f: &mut [f64]| {
        assert!(f.iter().all(|v| v.is_nan()));
        calls += 1;
        f[0] = y[1];
        if calls == 1 {
            f[1] = -y[0];
        }
    };
    let problem = swinging(1.0);
    let error = solve(&problem, forgetful, |_| Control::Continue).unwrap_err();
    assert!(error.finished().unwrap().nonfinite_at.is_some());

    // the zeros of a Jacobian need not be written, and what a call wrote is not there at the next
    let fresh = |time: f64, y: &[f64], columns: &mut [f64]| {
        assert!(columns.iter().all(|v| *v == 0.0));
        robertson_jacobian(time, y, columns);
    };
    let finished = chemistry().solve(RightSide::new(robertson).jacobian(fresh), |_| Control::Continue).unwrap();
    assert!(finished.nje > 1);
}
