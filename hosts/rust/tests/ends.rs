//! What a driver's `Ok` and its errors mean: early ends, poses that are not finite, equal ends of the interval,
//! tolerances that are NaN.

mod common;

use std::cell::Cell;
use std::convert::Infallible;
use std::error::Error as _;

use common::{breaking, cut_after, problem, swing};
use raimsklo::{solve, solve_dense, steps, Control, Dense, End, Error, Finished, Incomplete, NoPose, Options, Problem};
use raimsklo::{Reason, Refused, RightSide, Solver};

fn run(problem: &Problem, derivative: fn(f64, &[f64], &mut [f64])) -> Result<Finished, Error> {
    solve(problem, derivative, |_| Control::Continue)
}

fn ended<E>(error: Error<E>) -> Finished {
    match error {
        Error::Ended(finished) => finished,
        _ => panic!("another error than an end"),
    }
}

#[test]
fn an_early_end_is_an_error_of_every_driver() {
    let short = cut_after(3);
    let finished = ended(run(&short, swing).unwrap_err());
    assert_eq!((finished.end, finished.accepted, finished.nonfinite_at), (End::NeedsMoreSteps, 3, None));
    assert!(!finished.is_ok() && finished.check() == Err(Error::Ended(finished)));

    let mut taken = steps(&short, swing).unwrap();
    let times: Vec<f64> = taken.by_ref().take(3).map(|step| step.unwrap().time).collect();
    assert_eq!((times.len(), times[2], taken.finished()), (3, finished.time, None));
    assert_eq!(ended(taken.next().unwrap().unwrap_err()), finished);
    assert_eq!(taken.finished(), Some(finished));
    assert!(taken.next().is_none());

    let Incomplete { error, curve } = solve_dense(&short, swing).unwrap_err();
    assert_eq!((ended(error), curve.steps().len(), curve.span()), (finished, 3, (0.0, finished.time)));
    assert!(curve.at(finished.time).is_some() && curve.at(10.0).is_none());
}

#[test]
fn every_early_end_has_its_name_and_advice() {
    let told = [
        (End::Success, 110, "success", ""),
        (End::Interrupted, 111, "interrupted", ""),
        (
            End::NeedsMoreSteps,
            112,
            "needs more steps",
            "raise max_steps, give a first_step, loosen the tolerances, shorten the interval, or look for a pole of \
             the right side near this time",
        ),
        (
            End::StepTooSmall,
            113,
            "step too small",
            "loosen the tolerances, lower min_step, or look for a jump or a pole of the right side near this time",
        ),
        (
            End::PoorConvergence,
            114,
            "poor convergence",
            "give a Jacobian, raise maxcor or mxncf, lower min_step, or look for a jump or a pole of the right side \
             near this time",
        ),
        (End::CoefficientGap, 115, "coefficient gap", "set mxordn to 5 or less"),
    ];
    for (end, number, text, advice) in told {
        assert_eq!((end.number(), end.to_string().as_str(), end.advice()), (number, text, advice));
        let _: &dyn std::error::Error = &end;
    }

    // none but the first two are well, whatever else the run has
    let mut finished = run(&problem(1.0, &[1.0, 0.0], &[1e-3], &[1e-6]), swing).unwrap();
    for (end, number, ..) in told {
        finished.end = end;
        assert_eq!((finished.is_ok(), finished.check().is_ok()), (number < 112, number < 112));
    }

    let error = run(&cut_after(3), swing).unwrap_err();
    let time = error.finished().unwrap().time;
    let advice = End::NeedsMoreSteps.advice();
    assert_eq!(error.to_string(), format!("needs more steps: {advice} (the last pose is at time {time:?})"));
    assert!(error.source().is_none());

    // the sums of the scope: poor convergence, and a step too small
    let mut options = Options::default().first_step(1.0);
    let jumping = |time: f64, _: &[f64], f: &mut [f64]| f[0] = if time > 0.0 { 100.0 } else { 0.0 };
    let at_rest = Problem { options: options.min_step(1.0), ..problem(1.0, &[0.0], &[0.0], &[1.0]) };
    let finished = ended(run(&at_rest, jumping).unwrap_err());
    assert_eq!((finished.end, finished.total, finished.rejected), (End::StepTooSmall, 0, 1));
    (options.maxcor, options.mxncf) = (1, 1);
    let finished = ended(run(&Problem { options, ..at_rest }, jumping).unwrap_err());
    assert_eq!((finished.end, finished.total, finished.rejected), (End::PoorConvergence, 0, 0));
}

#[test]
fn a_pose_that_is_not_finite_is_no_success() {
    let problem = problem(1.0, &[1.0], &[1e-3], &[1e-6]);
    let mut first = None;
    let error = solve(&problem, breaking, |step| {
        if step.y[0].is_nan() && first.is_none() {
            first = Some(step.time);
        }
        Control::Continue
    })
    .unwrap_err();
    let text = format!("success, but the pose at time {:?} is not finite", first.unwrap());
    assert_eq!(error.to_string(), text);
    let finished = ended(error);
    assert_eq!((finished.end, finished.nonfinite_at, finished.time), (End::Success, first, 1.0));

    // the run itself goes on as the library has it: every driver has the same steps, and says so at the end
    let mut taken = steps(&problem, breaking).unwrap();
    assert_eq!(taken.by_ref().take_while(|step| step.is_ok()).count(), finished.accepted);
    assert_eq!(taken.finished(), Some(finished));
    let Incomplete { error, curve } = solve_dense(&problem, breaking).unwrap_err();
    assert_eq!((ended(error), curve.steps().len()), (finished, finished.accepted));
    assert!((curve.at(0.25).unwrap()[0] - 1.25).abs() < 1e-9);

    // the start's own pose, an infinity, an interrupt after it, and an early end, which keeps its name
    for y0 in [f64::NAN, f64::INFINITY] {
        let lost = Problem { y0: &[y0], ..problem };
        assert_eq!(ended(run(&lost, |_, _, f| f[0] = 0.0).unwrap_err()).nonfinite_at, Some(0.0));
        let finished = ended(solve(&lost, |_, _, f| f[0] = 0.0, |_| Control::Interrupt).unwrap_err());
        assert_eq!((finished.end, finished.nonfinite_at), (End::Interrupted, Some(0.0)));
    }
    let mut lost = Problem { y0: &[f64::NAN], ..problem };
    lost.options.max_steps = 2;
    let error = run(&lost, |_, _, f| f[0] = 0.0).unwrap_err();
    assert!(error.to_string().ends_with("; the pose at time 0.0 is not finite"), "{error}");
    assert_eq!(ended(error).end, End::NeedsMoreSteps);
}

#[test]
fn equal_ends_are_a_success_without_a_step() {
    let y0 = [1.0, 0.0];
    let still = Problem { x0: 3.0, ..problem(3.0, &y0, &[1e-3], &[1e-6]) };
    let finished = run(&still, swing).unwrap();
    assert_eq!((finished.end, finished.h, finished.time), (End::Success, 0.0, 3.0));
    assert_eq!((finished.nfe, finished.accepted), (1, 0));
    let mut taken = steps(&still, swing).unwrap();
    assert!(taken.next().is_none());
    assert_eq!(taken.finished(), Some(finished));
    let (dense_finished, curve) = solve_dense(&still, swing).unwrap();
    assert_eq!((dense_finished, curve.span(), curve.at(3.0).unwrap()), (finished, (3.0, 3.0), y0.to_vec()));

    for (x0, xend) in [(0.0, -0.0), (-0.0, 0.0)] {
        let finished = run(&Problem { x0, xend, ..still }, swing).unwrap();
        assert_eq!((finished.end, finished.accepted), (End::Success, 0));
    }

    // everything else is refused as ever
    let refused = |problem: &Problem| match run(problem, swing).unwrap_err() {
        Error::Refused(refused) => refused.number(),
        error => panic!("{error}"),
    };
    assert_eq!(refused(&Problem { rtol: &[-1.0], ..still }), 9);
    assert_eq!(refused(&Problem { atol: &[0.0], ..still }), 12);
    assert_eq!(refused(&Problem { options: still.options.first_step(0.0), ..still }), 11);
    assert_eq!(ended(run(&Problem { y0: &[1.0, f64::NAN], ..still }, swing).unwrap_err()).nonfinite_at, Some(3.0));
    // ends that are not finite have no difference
    for x in [f64::INFINITY, f64::NEG_INFINITY] {
        for options in [still.options, still.options.first_step(1.0), still.options.first_step(-1.0)] {
            assert_eq!(refused(&Problem { x0: x, xend: x, options, ..still }), 11);
        }
    }
    // the machine hands on what it is given
    assert_eq!(Solver::start(&still).unwrap().derivative(&[0.0, -1.0]).unwrap_err().reason, Reason::FirstStep);
}

#[test]
fn no_driver_takes_a_nan_tolerance() {
    let never: fn(f64, &[f64], &mut [f64]) = |_, _, _| unreachable!("a derivative was asked for");
    let nan = f64::NAN;
    let whole = problem(10.0, &[1.0, 0.0], &[1e-3], &[1e-6]);
    let cases = [
        (Problem { rtol: &[nan], ..whole }, "rtol", 0),
        (Problem { rtol: &[1e-3, nan], ..whole }, "rtol", 1),
        (Problem { atol: &[-nan], ..whole }, "atol", 0),
        (Problem { rtol: &[0.0, nan], atol: &[nan, 1e-6], ..whole }, "rtol", 1),
        (Problem { rtol: &[nan, nan], ..whole }, "rtol", 0),
        (Problem { y0: &[1.0, 0.0, 0.0], atol: &[1e-6, nan, nan], ..whole }, "atol", 1),
        (Problem { y0: &[], atol: &[nan], ..whole }, "atol", 0),
        (Problem { xend: whole.x0, atol: &[1e-6, nan], ..whole }, "atol", 1),
    ];
    for (problem, list, index) in cases {
        let error = Error::NanTolerance { list, index };
        assert_eq!(error.to_string(), format!("{list}[{index}] is NaN"));
        assert!(error.finished().is_none() && error.source().is_none());
        assert_eq!(solve(&problem, never, |_| Control::Continue), Err(error.clone()));
        assert_eq!(steps(&problem, never).unwrap_err(), error);
        let cut = solve_dense(&problem, never).unwrap_err();
        assert_eq!((cut.error, cut.curve.steps().len()), (error.clone(), 0));
        let system = RightSide::new(never).jacobian(never);
        assert_eq!(problem.solve(system, |_| Control::Continue), Err(error.clone()));
        assert_eq!(problem.steps(system).unwrap_err(), error);
        assert_eq!(problem.solve_dense(system).unwrap_err().error, error);
        // the machine hands on what it is given
        assert!(Solver::start(&problem).is_ok());
    }

    // what the library refuses is refused by its number
    let number = |problem: &Problem| match steps(problem, never).unwrap_err() {
        Error::Refused(refused) => refused.number(),
        error => panic!("{error}"),
    };
    assert_eq!(number(&Problem { y0: &[0.0; 65], rtol: &[nan], ..whole }), 1);
    assert_eq!(number(&Problem { rtol: &[nan; 3], ..whole }), 2);
    assert_eq!(number(&Problem { rtol: &[nan], atol: &[], ..whole }), 2);
    assert_eq!(number(&Problem { rtol: &[nan, -1.0], ..whole }), 9);
}

#[test]
fn a_refusal_keeps_the_steps_before_it() {
    // it falls by a sixteenth in each step, and its weight is 0 at the end of the last
    let options = Options::default().first_step(0.0625).max_step(0.0625);
    let falling = Problem { options, ..problem(10.0, &[1.0], &[0.5], &[0.0]) };
    let to_zero = |_: f64, _: &[f64], f: &mut [f64]| f[0] = -1.0;
    let mut taken = steps(&falling, to_zero).unwrap();
    let mut count = 0;
    let last = loop {
        match taken.next().unwrap() {
            Ok(_) => count += 1,
            Err(error) => break error,
        }
    };
    let Error::Refused(Refused { reason: Reason::Weight, index: 0, .. }) = last else { panic!("{last}") };
    assert!(taken.next().is_none() && taken.finished().is_none());
    assert_eq!(count, 15);
    let cut = solve_dense(&falling, to_zero).unwrap_err();
    assert_eq!((cut.error, cut.curve.steps().len()), (last, count));
}

#[test]
fn question_mark_lets_no_early_end_pass() {
    fn table() -> Result<usize, Box<dyn std::error::Error>> {
        let finished = solve(&cut_after(3), swing, |_| Control::Continue)?;
        Ok(finished.accepted)
    }
    fn curve() -> Result<Dense, Error> {
        Ok(solve_dense(&cut_after(3), swing)?.1)
    }
    fn rows() -> Result<usize, Box<dyn std::error::Error + Send + Sync>> {
        let mut rows = 0;
        for step in steps(&cut_after(3), swing)? {
            rows += step?.y.len();
        }
        Ok(rows)
    }
    assert!(table().unwrap_err().downcast_ref::<Error>().unwrap().finished().is_some());
    assert_eq!(ended(curve().unwrap_err()).end, End::NeedsMoreSteps);
    assert!(rows().unwrap_err().to_string().starts_with("needs more steps"));
}

#[test]
fn errors_go_to_other_threads() {
    fn sent<T: std::error::Error + Send + Sync + 'static>() {}
    sent::<Error>();
    sent::<Error<std::io::Error>>();
    sent::<Incomplete<Infallible>>();
    sent::<NoPose>();
    sent::<Refused>();
    sent::<End>();
}

#[test]
fn a_first_step_that_cannot_be_computed_ends_the_run() {
    let whole = problem(1.0, &[1.0], &[1e-3], &[1e-6]);
    let calls = Cell::new(0);
    let refused = |problem: &Problem, slope: f64| {
        calls.set(0);
        let rising = |_: f64, _: &[f64], f: &mut [f64]| {
            calls.set(calls.get() + 1);
            f[0] = slope;
        };
        match solve(problem, rising, |_| Control::Interrupt).unwrap_err() {
            Error::Refused(refused) => refused.reason,
            error => panic!("{error}"),
        }
    };
    // it comes in the midst of the run, after the first derivative
    for slope in [f64::INFINITY, f64::NEG_INFINITY, 1e300, 1e200] {
        assert_eq!((refused(&whole, slope), calls.get()), (Reason::FirstStep, 1));
    }
    for (x0, xend) in [(0.0, f64::NAN), (f64::NAN, 1.0), (f64::NAN, f64::NAN)] {
        assert_eq!((refused(&Problem { x0, xend, ..whole }, 1.0), calls.get()), (Reason::FirstStep, 1));
    }
    // a NaN derivative is no such case: its poses are NaN
    assert!(ended(run(&whole, |_, _, f| f[0] = f64::NAN).unwrap_err()).nonfinite_at.is_some());
}

#[test]
fn a_modified_pose_of_another_length_is_refused() {
    let unasked = Refused { reason: Reason::Unasked, index: 0, value: 0.0 };
    for pose in [vec![], vec![1.0], vec![1.0, 0.0, 0.0]] {
        let mut reports = 0;
        let outcome = solve(&problem(10.0, &[1.0, 0.0], &[1e-3], &[1e-6]), swing, |_| {
            reports += 1;
            if reports == 1 {
                Control::Modified(pose.clone())
            } else {
                Control::Interrupt
            }
        });
        assert_eq!((outcome, reports), (Err(Error::Refused(unasked)), 1));
    }
}

#[test]
fn a_success_may_end_past_the_interval_by_a_rounding() {
    let (x0, xend) = (-0.412, 0.018);
    let swinging = Problem { x0, ..problem(xend, &[1.0, 0.0], &[1e-3], &[1e-6]) };
    let mut latest = x0;
    let watched = |time: f64, y: &[f64], f: &mut [f64]| {
        latest = f64::max(latest, time);
        swing(time, y, f);
    };
    let (finished, curve) = solve_dense(&swinging, watched).unwrap();
    let past = 0.018000000000000002;
    assert_eq!((finished.end, finished.time, latest, curve.span()), (End::Success, past, past, (x0, past)));
    assert!(past > xend && past - xend < 1e-17);
    assert_eq!(curve.at(past).unwrap(), curve.steps().last().unwrap().y);
    assert!(curve.at(xend).is_some());
}
