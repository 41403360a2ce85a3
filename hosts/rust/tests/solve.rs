//! Whole runs: the classic problems, what a report may say, and two runs that are kept with their bits.

mod common;

use std::cell::Cell;

use common::{problem, robertson, robertson_jacobian, swing, swinging};
use raimsklo::{solve, solve_dense, steps, Control, End, Options, Problem, RightSide};

#[test]
fn oscillator() {
    let problem = problem(10.0, &[1.0, 0.0], &[1e-8], &[1e-10]);
    let cap = problem.options.cap(2);
    let (mut last, mut steps) = (vec![], 0);
    let finished = solve(&problem, swing, |step| {
        assert!(step.count <= cap && step.previous < step.time);
        steps += 1;
        last = step.y.to_vec();
        Control::Continue
    })
    .unwrap();
    assert_eq!((finished.end, finished.accepted), (End::Success, steps));
    assert_eq!((finished.time, finished.nonfinite_at), (10.0, None));
    assert!((last[0] - 10f64.cos()).abs() < 1e-4);
}

#[test]
fn stiff_problems() {
    let van_der_pol = |_: f64, y: &[f64], f: &mut [f64]| {
        f[0] = y[1];
        f[1] = 1000.0 * (1.0 - y[0] * y[0]) * y[1] - y[0];
    };
    let stiff = problem(2000.0, &[2.0, 0.0], &[1e-5], &[1e-8]);
    assert!(solve(&stiff, van_der_pol, |_| Control::Continue).unwrap().nje > 0);

    let chemistry = problem(40.0, &[1.0, 0.0, 0.0], &[1e-6], &[1e-8, 1e-12, 1e-8]);
    let (mut by_differences, mut supplied) = (vec![], vec![]);
    solve(&chemistry, robertson, |step| {
        by_differences = step.y.to_vec();
        Control::Continue
    })
    .unwrap();
    let with_jacobian = RightSide::new(robertson).jacobian(robertson_jacobian);
    let finished = chemistry.solve(with_jacobian, |step| {
        supplied = step.y.to_vec();
        Control::Continue
    });
    assert!(finished.unwrap().nje > 0);
    for y in [by_differences, supplied] {
        assert!((y[0] - 0.7158271).abs() < 1e-4 && (y[2] - 0.2841637).abs() < 1e-4, "{y:?}");
    }
}

#[test]
fn what_a_report_says() {
    let whole = problem(10.0, &[1.0, 0.0], &[1e-3], &[1e-6]);
    let finished = solve(&whole, swing, |_| Control::Interrupt).unwrap();
    assert_eq!((finished.end, finished.accepted), (End::Interrupted, 1));
    assert!(finished.time > 0.0 && finished.time < 10.0);

    let mut poses = vec![];
    let finished = solve(&whole, swing, |step| {
        poses.push(step.y[0]);
        match poses.len() {
            1 => Control::Modified(vec![2.0 * step.y[0], step.y[1]]),
            _ => Control::Continue,
        }
    });
    assert_eq!(finished.unwrap().end, End::Success);
    assert!(poses[0] < 1.0 && poses[1] > 1.9);
}

#[test]
fn nothing_to_do() {
    let finished = solve(&problem(1.0, &[], &[1e-3], &[1e-6]), |_, _, _| (), |_| Control::Continue).unwrap();
    assert_eq!((finished.end, finished.nfe), (End::Success, 0));
    // its time is the start's, whatever that is
    let empty = Problem { x0: 0.5, ..problem(1.0, &[], &[1e-3], &[1e-6]) };
    assert_eq!(solve(&empty, |_, _, _| (), |_| Control::Continue).unwrap().time, 0.5);
    let (finished, curve) = solve_dense(&empty, |_, _, _| ()).unwrap();
    assert_eq!((finished.time, curve.span(), curve.at(0.5)), (0.5, (0.5, 0.5), Some(vec![])));
}

#[test]
fn sixty_four_states() {
    let y0: Vec<f64> = (0..64).map(f64::from).collect();
    let mut last = vec![];
    let decay = |_: f64, y: &[f64], f: &mut [f64]| {
        for (f, y) in f.iter_mut().zip(y) {
            *f = -y;
        }
    };
    let finished = solve(&problem(1.0, &y0, &[1e-6], &[1e-9]), decay, |step| {
        last = step.y.to_vec();
        Control::Continue
    });
    assert_eq!(finished.unwrap().end, End::Success);
    assert!(last.len() == 64 && last.iter().zip(&y0).all(|(y, y0)| (y - y0 / 1f64.exp()).abs() <= 1e-4 * y0));
}

#[test]
fn a_step_counts_its_derivatives() {
    // what belongs to no step: the first derivative, and one after each modified pose
    let calls = Cell::new(0);
    let counted = |time: f64, y: &[f64], f: &mut [f64]| {
        calls.set(calls.get() + 1);
        robertson(time, y, f);
    };
    let chemistry = problem(40.0, &[1.0, 0.0, 0.0], &[1e-6], &[1e-8, 1e-12, 1e-8]);
    let (mut before, mut sum, mut reports, mut largest) = (1, 0, 0, 0);
    let finished = solve(&chemistry, counted, |step| {
        assert_eq!(step.count, calls.get() - before);
        (sum, reports, largest) = (sum + step.count, reports + 1, largest.max(step.count));
        if reports == 5 {
            before = calls.get() + 1;
            return Control::Modified(step.y.to_vec());
        }
        before = calls.get();
        Control::Continue
    });
    let finished = finished.unwrap();
    assert_eq!((finished.nfe, calls.get()), (sum + 2, sum + 2));
    assert!(finished.nje > 0 && 3 < largest && largest <= chemistry.options.cap(3));

    // the same of steps that outlive their reports
    calls.set(0);
    let (finished, curve) = solve_dense(&chemistry, counted).unwrap();
    let borrowed: usize = curve.steps().iter().map(|step| step.as_step().count).sum();
    let kept: usize = curve.steps().iter().map(|step| step.count).sum();
    assert_eq!((kept + 1, borrowed + 1, finished.nfe), (calls.get(), calls.get(), calls.get()));
}

#[test]
fn counts_of_a_run_have_their_names() {
    // its first Jacobian is a wrong one, by which the iteration's matrix is singular: it is not factored
    let chemistry = problem(40.0, &[1.0, 0.0, 0.0], &[1e-3], &[1e-8, 1e-12, 1e-8]);
    let (mut jacobians, mut derivatives, mut reports) = (0, 0, 0);
    let counted = |time: f64, y: &[f64], f: &mut [f64]| {
        derivatives += 1;
        robertson(time, y, f);
    };
    let wrong_at_first = |time: f64, y: &[f64], columns: &mut [f64]| {
        jacobians += 1;
        if jacobians == 1 {
            columns.fill(1e200);
        } else {
            robertson_jacobian(time, y, columns);
        }
    };
    let finished = chemistry.solve(RightSide::new(counted).jacobian(wrong_at_first), |_| {
        reports += 1;
        Control::Continue
    });
    let finished = finished.unwrap();
    assert_eq!((finished.nfe, finished.nje, finished.accepted), (derivatives, jacobians, reports));
    assert_eq!((finished.nfe, finished.nje, finished.nlu), (146, 20, 19));
    assert_eq!((finished.total, finished.accepted, finished.rejected), (96, 92, 4));
    assert_eq!(finished.h, 2.3290535969835418);
}

#[test]
fn steps_one_at_a_time() {
    let problem = swinging(10.0);
    let mut reported = vec![];
    let finished = solve(&problem, swing, |step| {
        reported.push((step.previous, step.time, step.y.to_vec(), step.count));
        Control::Continue
    });
    let mut run = steps(&problem, swing).unwrap();
    assert_eq!(run.finished(), None);
    let taken: Vec<_> = run.by_ref().map(|step| step.unwrap()).map(|s| (s.previous, s.time, s.y, s.count)).collect();
    assert_eq!((taken, run.finished()), (reported, finished.ok()));
    assert!(run.next().is_none());
}

#[test]
fn a_closure_that_panics_stops_the_run() {
    let problem = swinging(10.0);
    let mut calls = 0;
    let caught = std::panic::catch_unwind(std::panic::AssertUnwindSafe(|| {
        let derivative = |_: f64, y: &[f64], f: &mut [f64]| {
            calls += 1;
            assert!(calls < 5, "the rig is gone");
            swing(0.0, y, f);
        };
        solve(&problem, derivative, |_| Control::Continue)
    }));
    assert_eq!((caught.is_err(), calls), (true, 5));
}

#[test]
fn caps_are_known_beforehand() {
    let mut options = Options::default();
    assert_eq!((options.cap(2), options.jacobian_cap()), (22 * 3 + 7 + 2 * 19, 19));
    assert_eq!(options.with_jacobian().cap(2), 22 * 3 + 7);
    options.mxncf = 0;
    assert_eq!((options.cap(2), options.jacobian_cap()), (13 * 3 + 7 + 2 * 10, 10));
    (options.mxncf, options.maxcor) = (usize::MAX, usize::MAX);
    assert_eq!((options.cap(2), options.jacobian_cap()), (usize::MAX, usize::MAX));
    assert_eq!(options.with_jacobian().cap(2), usize::MAX);
    // each part alone
    assert_eq!(options.with_jacobian().maxcor(1).cap(2), usize::MAX);
    let half = options.mxncf(usize::MAX / 2 - 8).maxcor(0);
    assert_eq!((half.cap(1), half.cap(2)), (usize::MAX / 2 + 8, usize::MAX));
}

#[test]
fn options_say_what_they_were_given() {
    let options = Options::default();
    assert_eq!((options.given_max_step(), options.given_min_step(), options.given_first_step()), (None, None, None));
    assert!(!options.asks_jacobian() && options.with_jacobian().asks_jacobian());
    let given = options.max_step(2.0).min_step(0.5).first_step(-1.0);
    let told = (given.given_max_step(), given.given_min_step(), given.given_first_step());
    assert_eq!(told, (Some(2.0), Some(0.5), Some(-1.0)));
    assert_ne!(given, options);
    let set = options.max_steps(1).mxordn(2).mxords(3).maxcor(4).msbp(5).mxncf(6);
    assert_eq!((set.max_steps, set.mxordn, set.mxords, set.maxcor, set.msbp, set.mxncf), (1, 2, 3, 4, 5, 6));

    // the sign of the largest and of the smallest step does not matter, whichever way time runs
    for (x0, xend) in [(0.0, 10.0), (10.0, 0.0)] {
        let end = |options| {
            let swinging = Problem { x0, options, ..problem(xend, &[1.0, 0.0], &[1e-3], &[1e-6]) };
            solve(&swinging, swing, |_| Control::Continue)
        };
        for h in [1.0, 1e-3] {
            assert_eq!(end(options.min_step(h)), end(options.min_step(-h)));
            assert_ne!(end(options.min_step(h)), end(options));
        }
        assert_eq!(end(options.min_step(1.0)).unwrap_err().finished().unwrap().end, End::PoorConvergence);
        assert_eq!(end(options.max_step(1e-2)), end(options.max_step(-1e-2)));
        assert!(end(options.max_step(1e-2)).unwrap().accepted >= 1000);

        // these act as none given
        for none in [options.max_step(0.0), options.max_step(f64::NAN), options.min_step(f64::NAN)] {
            assert_eq!(end(none), end(options));
        }
        // beyond the interval a smallest step never moves
        for h in [10.5, -10.5] {
            let error = end(options.min_step(h)).unwrap_err();
            let finished = error.finished().unwrap();
            assert_eq!((finished.end, finished.time, finished.h), (End::NeedsMoreSteps, x0, 0.0));
            assert_eq!((finished.accepted, finished.rejected), (100_000, 0));
        }
    }

    // a first step has the direction of time
    let y0 = [10f64.cos(), -10f64.sin()];
    let backward = Problem { x0: 10.0, options: options.first_step(-1e-3), ..problem(0.0, &y0, &[1e-6], &[1e-9]) };
    let first = steps(&backward, swing).unwrap().next().unwrap().unwrap();
    assert_eq!((first.previous, first.time), (10.0, 10.0 - 1e-3));
}

#[test]
fn the_root_is_the_solvers() {
    assert_eq!((raimsklo::root(8.0, 3), raimsklo::root(1.0, 13)), (2.0, 1.0));
    assert!(raimsklo::root(8.0, 1).is_nan() && raimsklo::root(8.0, 14).is_nan() && raimsklo::root(-8.0, 3).is_nan());
}

// Two runs of the published solver that are kept with its bits: docs/DIFFERENCES.md.

#[test]
fn robertson_to_4e10_succeeds_far_from_every_concentration() {
    let problem = problem(4e10, &[1.0, 0.0, 0.0], &[1e-4], &[1e-6, 1e-10, 1e-6]);
    let mut last = vec![];
    let finished = solve(&problem, robertson, |step| {
        last = step.y.to_vec();
        Control::Continue
    });
    let finished = finished.unwrap();
    assert_eq!((finished.end, finished.accepted, finished.rejected), (End::Success, 7_965, 144));
    assert_eq!((finished.nfe, finished.nje, finished.nlu), (10_331, 491, 491));
    let pose = [0xc172_48c9_ff7e_8709, 0xbed0_c6f7_9234_a219, 0x4172_48ca_0f7e_8b39];
    assert_eq!(last, pose.map(f64::from_bits));
}

#[test]
fn a_state_next_to_rest_never_leaves_adams() {
    let mut problem = problem(10.0, &[1.0 + 1e-12], &[1e-8], &[1e-8]);
    problem.options.max_steps = 1_000_000;
    let finished = solve(&problem, |_, y, f| f[0] = -1e4 * (y[0] - 1.0), |_| Control::Continue).unwrap();
    assert_eq!((finished.end, finished.accepted, finished.rejected), (End::Success, 199_982, 1));
    assert_eq!((finished.nfe, finished.nje), (200_005, 0));
}
