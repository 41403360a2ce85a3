//! Poses between and beyond the ends of steps.

mod common;

use common::{problem, swing, swinging};
use raimsklo::{interpolate, solve, solve_dense, steps, Control, End, NoPose, Problem, Reason};

#[test]
fn interpolation_within_a_step() {
    let problem = problem(5.0, &[1.0, 0.0], &[1e-8], &[1e-10]);
    let finished = solve(&problem, swing, |step| {
        let middle = 0.5 * (step.previous + step.time);
        assert!((step.at(middle).unwrap()[0] - middle.cos()).abs() < 1e-4);
        assert_eq!(step.at(step.time).unwrap(), step.y);
        assert_eq!(interpolate(middle, &mut [0.0; 3], step.snapshot).unwrap_err().number(), 16);
        Control::Continue
    });
    assert_eq!(finished.unwrap().end, End::Success);
}

#[test]
fn a_step_is_exact_at_its_end_and_near_at_its_beginning() {
    for (x0, xend) in [(0.0, 10.0), (10.0, 0.0)] {
        let y0 = [f64::cos(x0), -f64::sin(x0)];
        let problem = Problem { x0, y0: &y0, ..swinging(xend) };
        let (_, dense) = solve_dense(&problem, swing).unwrap();
        let (mut before, mut order_before, mut changes) = (y0.to_vec(), 1, 0);
        for step in dense.steps() {
            assert_eq!(step.at(step.time).unwrap(), step.y);
            assert_eq!(dense.at(step.time).unwrap(), step.y);
            let order = (step.snapshot.len() - 6) / 2 - 1;
            let weighed = |(at, y): (&f64, &f64)| (at - y).abs() / (1e-6 * y.abs() + 1e-9);
            let apart = step.at(step.previous).unwrap().iter().zip(&before).map(weighed).fold(0.0, f64::max);
            // a rounding; a step's error where the order is another
            if order == order_before {
                assert!(apart < 1e-5, "{apart}");
            } else {
                assert!(1e-3 < apart && apart < 1.0, "{apart}");
                changes += 1;
            }
            (before, order_before) = (step.y.clone(), order);
        }
        assert!(changes > 0);
    }
}

#[test]
fn a_steps_end_is_its_pose_where_nothing_can_be_interpolated() {
    // steps of length 0: the smallest one is beyond the interval, or 1 over the largest is infinite
    let whole = problem(0.5, &[1.0], &[1e-3], &[1e-6]);
    let decay = |_: f64, y: &[f64], f: &mut [f64]| f[0] = -y[0];
    for options in [whole.options.min_step(1.0), whole.options.max_step(1e-320)] {
        let step = steps(&Problem { options, ..whole }, decay).unwrap().next().unwrap().unwrap();
        assert_eq!((step.previous, step.time, step.y.as_slice()), (0.0, 0.0, &[1.0][..]));
        assert_eq!(interpolate(step.time, &mut [0.0], &step.snapshot).unwrap_err().reason, Reason::ShortSnapshot);
        assert_eq!((step.at(step.time), step.as_step().at(-0.0)), (Ok(vec![1.0]), Ok(vec![1.0])));
    }
    for (x0, xend) in [(f64::NEG_INFINITY, 0.5), (f64::INFINITY, 0.5)] {
        let step = steps(&Problem { x0, xend, ..whole }, decay).unwrap().next().unwrap().unwrap();
        assert!(step.time == x0 && step.y[0].is_finite() && step.y[0] != 1.0);
        assert_eq!(step.at(x0), Ok(step.y.clone()));
    }
    // a step that ends nowhere has no pose, at its beginning either
    let lost = Problem { options: whole.options.min_step(f64::INFINITY), ..whole };
    let step = steps(&lost, decay).unwrap().next().unwrap().unwrap();
    assert!(step.time.is_nan() && step.at(0.0).is_err() && step.at(step.time).is_err());
}

#[test]
fn a_damaged_snapshot_has_no_pose_within_the_step() {
    let mut step = steps(&swinging(1.0), swing).unwrap().next().unwrap().unwrap();
    step.snapshot.truncate(7);
    let refused = interpolate(step.previous, &mut [0.0; 2], &step.snapshot).unwrap_err();
    let no_pose = step.at(step.previous).unwrap_err();
    assert_eq!((no_pose, refused.number()), (NoPose::Refused(refused), 17));
    assert_eq!(no_pose.to_string(), "refused (17): the snapshot's history is too short or its step is zero");
    assert_eq!(step.at(step.time), Ok(step.y.clone()));
}

#[test]
fn a_step_has_no_pose_outside_its_ends() {
    for (x0, xend) in [(0.0, 10.0), (10.0, 0.0)] {
        let y0 = [f64::cos(x0), -f64::sin(x0)];
        let problem = Problem { x0, y0: &y0, ..swinging(xend) };
        let mut taken = steps(&problem, swing).unwrap();
        let (_, step) = (taken.next(), taken.next().unwrap().unwrap());
        let (previous, end) = (step.previous, step.time);
        let beyond = end + 0.5 * (end - previous);
        for time in [x0, beyond, f64::INFINITY, f64::NEG_INFINITY] {
            assert_eq!(step.at(time), Err(NoPose::OutsideStep { time, previous, end }));
            assert_eq!(step.as_step().at(time), step.at(time));
        }
        assert!(step.at(f64::NAN).is_err() && step.at(previous).is_ok() && step.at(end).is_ok());
        let told = format!("time {beyond:?} is outside the step from {previous:?} to {end:?}");
        assert_eq!(step.at(beyond).unwrap_err().to_string(), told);
        // the library's own goes on
        let mut pose = [0.0; 2];
        interpolate(beyond, &mut pose, &step.snapshot).unwrap();
        assert!((pose[0] - beyond.cos()).abs() < 1e-3);
    }
}

#[test]
fn poses_at_any_time() {
    for (x0, xend) in [(0.0, 10.0), (10.0, 0.0)] {
        let y0 = [f64::cos(x0), -f64::sin(x0)];
        let problem = Problem { x0, ..problem(xend, &y0, &[1e-8], &[1e-10]) };
        let (finished, dense) = solve_dense(&problem, swing).unwrap();
        assert_eq!((finished.end, finished.accepted), (End::Success, dense.steps().len()));
        assert_eq!(dense.span(), (x0, xend));
        for i in 0..=1000 {
            let t = 0.01 * f64::from(i);
            assert!((dense.at(t).unwrap()[0] - t.cos()).abs() < 1e-4, "{t}");
        }
        assert_eq!(dense.at(x0).unwrap(), y0);
        assert_eq!(dense.at(xend).unwrap(), dense.steps().last().unwrap().at(xend).unwrap());
        assert!(dense.at(-0.1).is_none() && dense.at(10.1).is_none() && dense.at(f64::NAN).is_none());
    }
}

#[test]
fn of_several_steps_that_end_at_one_time_the_curve_has_the_first() {
    // steps too small to move so late a time: at the start it is y0 whatever was reported there since
    let swirl = |_: f64, y: &[f64], f: &mut [f64]| (f[0], f[1]) = (1e4 * y[1], -1e4 * y[0]);
    let mut late = Problem { x0: 1.7e9, ..problem(1.7e9 + 1.0, &[1.0, 0.0], &[1e-9], &[1e-12]) };
    late.options.max_steps = 12;
    let curve = solve_dense(&late, swirl).unwrap_err().curve;
    assert_eq!((curve.steps().len(), curve.span()), (12, (1.7e9, 1.7e9)));
    for step in curve.steps() {
        assert_eq!((step.previous, step.time, step.at(1.7e9).unwrap()), (1.7e9, 1.7e9, step.y.clone()));
        assert!(step.y[1] < 0.0);
    }
    assert_eq!(curve.at(1.7e9).unwrap(), late.y0);

    // toward a pole, whichever way time runs: it moves at first, and stands at last
    for ahead in [10.0, -10.0] {
        let options = late.options.max_steps(1000);
        let tangent = Problem { xend: 1.7e9 + ahead, y0: &[0.0], rtol: &[1e-3], atol: &[1e-6], options, ..late };
        let curve = solve_dense(&tangent, |_, y, f| f[0] = 1.0 + y[0] * y[0]).unwrap_err().curve;
        let (_, end) = curve.span();
        let first = curve.steps().iter().position(|step| step.time == end).unwrap();
        let there = &curve.steps()[first..];
        assert!(first > 50 && there.len() > 50 && there[1].y != there[0].y);
        assert_eq!(curve.at(end).unwrap(), there[0].y);
        let middle = 0.5 * (1.7e9 + curve.steps()[first / 2].time);
        assert!((curve.at(middle).unwrap()[0] - (middle - 1.7e9).tan()).abs() < 1e-2);
    }
}

#[test]
fn a_curve_has_no_pose_beyond_its_steps() {
    for (x0, xend) in [(0.0, 10.0), (10.0, 0.0)] {
        let mut cut = Problem { x0, ..problem(xend, &[1.0, 0.0], &[1e-3], &[1e-6]) };
        cut.options.max_steps = 5;
        let curve = solve_dense(&cut, swing).unwrap_err().curve;
        let (_, end) = curve.span();
        let outside = [x0 - (end - x0), end + (end - x0), xend, f64::INFINITY, f64::NEG_INFINITY, f64::NAN];
        for time in outside {
            assert_eq!(curve.at(time), None, "{time}");
        }
        assert!(curve.at(0.5 * (x0 + end)).is_some() && curve.at(end).is_some());
    }
}
