//! The machine that asks: questions, refusals, and what they leave.

mod common;

use common::{problem, swinging};
use raimsklo::{interpolate, solve, Control, End, Error, Options, Problem, Question, Reason, Refused, Solver, Step};

#[test]
fn refusals() {
    let refused = |problem: &Problem| Solver::start(problem).unwrap_err();
    assert_eq!(refused(&problem(1.0, &[0.0; 65], &[1e-3], &[1e-6])).number(), 1);
    assert_eq!(refused(&problem(1.0, &[0.0; 2], &[1e-3; 3], &[1e-6])).number(), 2);
    let negative = Refused { reason: Reason::NegativeRelative, index: 1, value: 0.0 };
    assert_eq!(refused(&problem(1.0, &[0.0; 2], &[1e-3, -1.0], &[1e-6])), negative);
    assert_eq!(refused(&problem(1.0, &[0.0; 2], &[1e-3], &[-1.0])).number(), 10);
    let options = Options::default().first_step(-0.5);
    let backward = Problem { options, ..problem(1.0, &[0.0], &[1e-3], &[1e-6]) };
    assert_eq!(refused(&backward), Refused { reason: Reason::FirstStep, index: 0, value: -0.5 });
    let told = "refused (11): the first step -0.5 is zero, NaN or leads away from the end";
    assert_eq!(refused(&backward).to_string(), told);
    let whole = problem(1.0, &[0.0], &[1e-3], &[1e-6]);
    let settings = [
        (Options::default().msbp(1_000_001), Reason::SettingTooLarge),
        (Options::default().max_steps(0), Reason::NoSteps),
        (Options::default().maxcor(0), Reason::NoIterations),
        (Options::default().mxordn(0), Reason::NoOrder),
        (Options::default().mxords(0), Reason::NoOrder),
    ];
    for (options, reason) in settings {
        assert_eq!(refused(&Problem { options, ..whole }).reason, reason);
    }
    assert_eq!(interpolate(0.0, &mut [0.0], &[f64::NAN; 8]).unwrap_err().reason, Reason::DamagedSnapshot);
    let weightless = problem(1.0, &[0.0], &[1e-3], &[0.0]);
    let error = solve(&weightless, |_, _, f| f[0] = 0.0, |_| Control::Continue).unwrap_err();
    assert_eq!(error, Error::Refused(Refused { reason: Reason::Weight, index: 0, value: 0.0 }));
    assert_eq!(error.to_string(), "refused (12): the weight rtol*|y|+atol of state 0 is at most 0");
}

#[test]
fn every_refusal_has_its_number_and_text() {
    let told = [
        (Reason::TooManyStates, "more than 64 states"),
        (Reason::ToleranceLength, "a tolerance list is neither 1 long nor as long as y0"),
        (Reason::BufferLength, "the length of a buffer is wrong"),
        (Reason::SettingTooLarge, "a setting is above 1,000,000"),
        (Reason::NoSteps, "max_steps is 0"),
        (Reason::NoIterations, "maxcor is 0"),
        (Reason::NoOrder, "mxordn or mxords is 0"),
        (Reason::Banded, "banded storage is not supported"),
        (Reason::NegativeRelative, "rtol[3] is below 0"),
        (Reason::NegativeAbsolute, "atol[3] is below 0"),
        (Reason::FirstStep, "the first step NaN is zero, NaN or leads away from the end"),
        (Reason::Weight, "the weight rtol*|y|+atol of state 3 is at most 0"),
        (Reason::DamagedSession, "the session holds a value out of its range"),
        (Reason::Unasked, "a reply of another kind or length was asked for, or the run has ended"),
        (Reason::DamagedSnapshot, "the snapshot's header is damaged"),
        (Reason::PoseLength, "the pose has another length than the snapshot's states"),
        (Reason::ShortSnapshot, "the snapshot's history is too short or its step is zero"),
    ];
    for (number, (reason, text)) in (1..).zip(told) {
        let refused = Refused { reason, index: 3, value: f64::NAN };
        assert_eq!((refused.number(), refused.to_string()), (number, format!("refused ({number}): {text}")));
    }
}

#[test]
fn too_many_states_are_refused_before_any_buffer() {
    // buffers for so many would not fit any memory
    let y0 = vec![0.0; 10_000_000];
    assert_eq!(Solver::start(&problem(1.0, &y0, &[1e-3], &[1e-6])).unwrap_err().reason, Reason::TooManyStates);
    let error = solve(&problem(1.0, &y0, &[], &[]), |_, _, _| (), |_| Control::Interrupt).unwrap_err();
    assert_eq!(error.to_string(), "refused (1): more than 64 states");
}

#[test]
fn a_refused_reply_changes_nothing() {
    let mut run = Solver::start(&problem(1.0, &[1.0, 0.0], &[1e-3], &[1e-6])).unwrap();
    assert_eq!(run.derivative(&[0.0]).unwrap_err().number(), 14);
    assert_eq!(run.jacobian(&[0.0; 4]).unwrap_err().number(), 14);
    assert_eq!(run.go_on(&[1.0, 0.0], 0.0).unwrap_err().number(), 14);
    assert!(matches!(run.question(), Question::Derivative { time, y } if time == 0.0 && y == [1.0, 0.0]));
    assert_eq!((run.ended(), run.question().to_string().as_str()), (false, "a derivative is wanted"));
    run.derivative(&[0.0, -1.0]).unwrap();
    assert!(matches!(run.question(), Question::FirstReport { .. }));
    assert_eq!(run.question().to_string(), "first report, before any step");
}

#[test]
fn eleven_and_twelve_in_a_reply_end_the_run() {
    let equal = Solver::start(&problem(0.0, &[1.0], &[1e-3], &[1e-6])).unwrap();
    let weightless = Solver::start(&problem(1.0, &[0.0], &[1e-3], &[0.0])).unwrap();
    for (mut run, number) in [(equal, 11), (weightless, 12)] {
        assert!(!run.ended());
        let refused = run.derivative(&[0.0]).unwrap_err();
        assert_eq!((refused.number(), run.ended()), (number, true));
        assert!(matches!(run.question(), Question::Refused(told) if told == refused));
        assert_eq!(run.question().to_string(), refused.to_string());
        assert_eq!(run.derivative(&[0.0]).unwrap_err().number(), 14);
        assert!(matches!(run.question(), Question::Refused(told) if told == refused));
    }
}

/// Brings an oscillator's run to its end.
fn finish(mut run: Solver) -> Solver {
    while !run.ended() {
        match run.question() {
            Question::Derivative { y, .. } => {
                let f = [y[1], -y[0]];
                run.derivative(&f).unwrap();
            }
            Question::FirstReport { time, y } => {
                let y = y.to_vec();
                run.go_on(&y, time).unwrap();
            }
            Question::Report(step) => {
                let (y, time) = (step.y.to_vec(), step.time);
                run.go_on(&y, time).unwrap();
            }
            question => panic!("{question}"),
        }
    }
    run
}

#[test]
fn a_run_has_one_end_and_a_clone_its_own() {
    let begun = Solver::start(&swinging(1.0)).unwrap();
    let copy = begun.clone();
    let mut run = finish(begun);
    let Question::Finished(finished) = run.question() else { panic!("no end") };
    assert_eq!((finished.end, finished.time, finished.check()), (End::Success, 1.0, Ok(finished)));
    assert_eq!(run.derivative(&[0.0; 2]).unwrap_err().number(), 14);
    assert!(matches!(run.question(), Question::Finished(again) if again == finished));

    // a run is its own, and may go on in another thread
    let other = std::thread::spawn(|| finish(copy)).join().unwrap();
    assert!(matches!(other.question(), Question::Finished(theirs) if theirs == finished));

    // one without states has ended too: it is no damaged session
    let mut empty = Solver::start(&problem(1.0, &[], &[1e-3], &[1e-6])).unwrap();
    assert!(empty.ended());
    assert_eq!(empty.derivative(&[]).unwrap_err().reason, Reason::Unasked);
}

#[test]
fn a_solver_knows_poses_that_are_not_finite() {
    let mut run = Solver::start(&problem(1.0, &[f64::NAN], &[1e-3], &[1e-6])).unwrap();
    run.derivative(&[0.0]).unwrap();
    run.interrupt(&[f64::NAN], 0.0).unwrap();
    let Question::Finished(finished) = run.question() else { panic!("no end") };
    assert_eq!((finished.end, finished.nonfinite_at, finished.is_ok()), (End::Interrupted, Some(0.0), false));
}

#[test]
fn a_time_of_the_hosts_counts_at_the_first_report() {
    let mut run = Solver::start(&problem(1.0, &[1.0], &[1e-3], &[1e-6])).unwrap();
    run.derivative(&[-1.0]).unwrap();
    let first = |reply: fn(&mut Solver, f64) -> Result<(), Refused>, time| {
        let mut run = run.clone();
        reply(&mut run, time).unwrap();
        run
    };
    // a step is tried from there; a modified pose has its derivative there
    let asked = |run: &Solver| match run.question() {
        Question::Derivative { time, .. } => time,
        question => panic!("{question}"),
    };
    let tried = asked(&first(|run, time| run.go_on(&[1.0], time), 0.0));
    let later = asked(&first(|run, time| run.go_on(&[1.0], time), 0.25));
    assert!(tried > 0.0 && later == 0.25 + tried);
    assert_eq!(asked(&first(|run, time| run.modified(&[2.0], time), 0.25)), 0.25);
    // an end has no time of its own, but the session keeps it; and poses go so far as they were reported
    let interrupted = |time| first(|run, time| run.interrupt(&[1.0], time), time);
    assert_eq!(format!("{:?}", interrupted(0.25)), format!("{:?}", interrupted(0.25)));
    assert_ne!(format!("{:?}", interrupted(0.25)), format!("{:?}", interrupted(0.0)));
    assert!(matches!(interrupted(0.25).question(), Question::Finished(finished) if finished.time == 0.0));
}

#[test]
fn every_question_has_its_text() {
    let mut stiff = problem(1.0, &[1.0], &[1e-3], &[1e-6]);
    stiff.options = stiff.options.with_jacobian();
    let mut run = Solver::start(&stiff).unwrap();
    let mut told = vec![];
    while !run.ended() {
        let text = run.question().to_string();
        match run.question() {
            Question::Derivative { y, .. } => {
                let f = [-1e4 * y[0]];
                run.derivative(&f).unwrap();
            }
            Question::Jacobian { .. } => {
                assert_eq!(run.jacobian(&[]).unwrap_err().number(), 14);
                run.jacobian(&[-1e4]).unwrap();
            }
            Question::FirstReport { time, y } | Question::Report(Step { time, y, .. }) => {
                let y = y.to_vec();
                run.go_on(&y, time).unwrap();
            }
            question => panic!("{question}"),
        }
        if !told.contains(&text) {
            told.push(text);
        }
    }
    let texts = [
        "a derivative is wanted",
        "first report, before any step",
        "report: a step was accepted",
        "a Jacobian is wanted",
    ];
    assert_eq!(told, texts);
    assert_eq!(run.question().to_string(), "success");
}
