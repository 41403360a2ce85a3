//! Our side: a host that answers the questions of start and reply, and sees that what only our calls promise is kept.

use crate::calls::{self, Lent, Reply, kind, number};
use crate::cases::Random;
use crate::coverage::Watch;
use crate::event::{End, Event, Report};
use crate::fixed::{self, Fixed};
use crate::model;
use crate::problem::Problem;
use crate::session::{Field, count, phase};
use crate::sides::{Answer, Side};
use crate::theirs::poses;
use std::cell::Cell;

/// A reply to a question.
#[derive(Clone, Debug)]
pub struct Given {
    pub kind: usize,
    pub numbers: Vec<f64>,
    pub time: f64,
}

/// What stands in the question before a call: no call may rely on it, and what it does not write stays.
const MARK: f64 = -7.0e77;

pub fn is_end(number: usize) -> bool {
    matches!(number, 11 | 12) || (number::SUCCESS..=number::GAP).contains(&number)
}

/// The end that a call returned.
pub fn end(reply: &Reply) -> Event {
    match reply.number {
        1..=12 => Event::Refused { number: reply.number, index: reply.index, value: reply.value },
        _ => Event::End(End {
            number: reply.number,
            h: reply.h,
            evaluations: [reply.nfe, reply.nje, reply.nlu],
            steps: [reply.total, reply.accepted, reply.rejected],
        }),
    }
}

/// How many numbers of the question a call writes.
fn written(reply: &Reply, n: usize) -> usize {
    match reply.number {
        number::DERIVATIVE | number::JACOBIAN | number::FIRST_REPORT => n,
        number::REPORT => n + 6 + (reply.order + 1) * n,
        _ => 0,
    }
}

/// The call's question as an event.
pub fn question(reply: &Reply, lent: &Lent, n: usize) -> Event {
    let y = lent.question[..n].to_vec();
    match reply.number {
        number::DERIVATIVE => Event::Derivative { time: reply.time, y },
        number::JACOBIAN => Event::Jacobian { time: reply.time, y },
        number::FIRST_REPORT => Event::FirstReport { previous: reply.previous, time: reply.time, y },
        number::REPORT => {
            let snapshot = lent.question[n..written(reply, n)].to_vec();
            let (previous, time, count) = (reply.previous, reply.time, reply.count);
            let refused = model::of_interpolation(&snapshot, n);
            let other = Cell::new(None);
            let poses = poses(previous, time, n, |at, pose| match calls::interpolate(at, pose, &snapshot) {
                number if number == refused => {}
                number => other.set(Some(number)),
            });
            if let Some(number) = other.get() {
                return Event::Broken(format!("an interpolation answered {number}, and {refused} was expected"));
            }
            Event::Report(Box::new(Report { previous, time, y, count, snapshot, poses }))
        }
        _ => end(reply),
    }
}

/// The reply to a derivative or a Jacobian that is wanted, after so many. Its time is not read, so it is any.
pub fn evaluated(reply: &Reply, lent: &Lent, n: usize, side: &Side, asked: u64) -> Given {
    let y = &lent.question[..n];
    if reply.number == number::JACOBIAN {
        let mut numbers = vec![0.0; n * n];
        side.jacobian(asked, reply.time, y, &mut numbers);
        return Given { kind: kind::JACOBIAN, numbers, time: MARK };
    }
    let mut numbers = vec![0.0; n];
    side.derivative(asked, reply.time, y, &mut numbers);
    Given { kind: kind::DERIVATIVE, numbers, time: MARK }
}

/// What the problem's host replies; it counts what it was asked to evaluate.
pub fn given(reply: &Reply, lent: &Lent, problem: &Problem, asked: &mut u64) -> Given {
    let n = problem.n();
    if matches!(reply.number, number::DERIVATIVE | number::JACOBIAN) {
        let given = evaluated(reply, lent, n, &problem.side, *asked);
        *asked += 1;
        return given;
    }
    let said = problem.says(*asked, reply.previous, reply.time, &lent.question[..n]);
    let kind = match said.answer {
        Answer::Continue | Answer::XOut => kind::CONTINUE,
        Answer::Interrupt => kind::INTERRUPT,
        Answer::Modified => kind::MODIFIED,
    };
    Given { kind, numbers: said.y, time: said.time }
}

/// Fields that a number has no use for are 0.
fn is_terse(reply: &Reply) -> bool {
    let question = (number::DERIVATIVE..=number::REPORT).contains(&reply.number);
    let counts = [
        (reply.index, matches!(reply.number, 9 | 10 | 12)),
        (reply.count, reply.number == number::REPORT),
        (reply.order, reply.number == number::REPORT),
        (reply.nfe, reply.number >= number::SUCCESS),
        (reply.nje, reply.number >= number::SUCCESS),
        (reply.nlu, reply.number >= number::SUCCESS),
        (reply.total, reply.number >= number::SUCCESS),
        (reply.accepted, reply.number >= number::SUCCESS),
        (reply.rejected, reply.number >= number::SUCCESS),
    ];
    let floats = [
        (reply.value, reply.number == 11),
        (reply.time, question),
        (reply.previous, matches!(reply.number, number::FIRST_REPORT | number::REPORT)),
        (reply.h, reply.number >= number::SUCCESS),
    ];
    counts.iter().all(|(x, used)| *used || *x == 0) && floats.iter().all(|(x, used)| *used || x.to_bits() == 0)
}

/// A call, and whether it wrote what it may of the question and nothing else.
pub fn call(given: &Given, lent: &mut Lent, n: usize) -> Result<Reply, String> {
    lent.question.fill(MARK);
    let reply = calls::reply(given.kind, &given.numbers, given.time, lent);
    if lent.question[written(&reply, n)..].iter().any(|&x| x != MARK) {
        return Err(format!("{reply:?} wrote more of the question than its own part"));
    }
    if !is_terse(&reply) {
        return Err(format!("{reply:?} says more than its number has"));
    }
    Ok(reply)
}

/// A reply that is not the one asked for: refused, with nothing changed.
fn disturb(random: &mut Random, asked: &Given, lent: &mut Lent) -> Result<(), String> {
    let mut wrong = asked.clone();
    let report = asked.kind >= kind::CONTINUE;
    match random.below(3) {
        0 => wrong.kind = if report { random.below(3) as usize } else { random.within(3, 9) },
        1 => wrong.numbers.push(0.0),
        _ => wrong.numbers.truncate(wrong.numbers.len() - 1),
    }
    let before = lent.clone();
    let reply = calls::reply(wrong.kind, &wrong.numbers, wrong.time, lent);
    if reply.number != 14 || !lent.is(&before) {
        return Err(format!("{wrong:?} instead of {asked:?}: {reply:?}"));
    }
    Ok(())
}

/// A finished session answers 14 to everything and changes nothing.
fn stays_finished(lent: &mut Lent, n: usize) -> Result<(), String> {
    let before = lent.clone();
    for kind in 0..=6 {
        for length in [n, n * n] {
            let reply = calls::reply(kind, &vec![1.0; length], 0.0, lent);
            if reply.number != 14 || !lent.is(&before) {
                return Err(format!("kind {kind} to a finished session: {reply:?}"));
            }
        }
    }
    Ok(())
}

/// A start finds anything in what is lent.
fn unclean(random: &mut Random, n: usize) -> Lent {
    let mut lent = Lent::new(n);
    lent.work.fill_with(|| f64::from_bits(random.word()));
    lent.pivots.fill_with(|| random.word() as usize);
    lent.session.fill_with(|| random.word() as u8);
    lent.question.fill(MARK);
    lent
}

/// A start fills work and pivots with 0 first; y is kept in its own part.
fn is_cleared(lent: &Lent, problem: &Problem) -> bool {
    let y = 17 * problem.n()..18 * problem.n();
    lent.pivots.iter().all(|&p| p == 0)
        && lent.work.iter().enumerate().all(|(i, x)| match y.contains(&i) {
            true => crate::report::same(*x, problem.y0[i - y.start]),
            false => x.to_bits() == 0,
        })
}

/// How the run ends, and nothing else.
pub fn last(problem: &Problem) -> Event {
    let n = problem.n();
    let mut lent = Lent::new(n);
    let Problem { x0, xend, y0, rtol, atol, options, .. } = problem;
    let mut reply = calls::start(*x0, *xend, y0, rtol, atol, *options, &mut lent);
    let mut asked = 0;
    while (number::DERIVATIVE..=number::REPORT).contains(&reply.number) {
        let given = given(&reply, &lent, problem, &mut asked);
        reply = calls::reply(given.kind, &given.numbers, given.time, &mut lent);
    }
    end(&reply)
}

/// The run's events, at most so many of them.
pub fn run(problem: &Problem, random: &mut Random, most: usize, watch: &mut Watch) -> Vec<Event> {
    let mut events = Vec::new();
    if let Err(broken) = play(problem, random, most, watch, &mut events) {
        events.push(Event::Broken(broken));
    }
    events
}

fn play(
    problem: &Problem,
    random: &mut Random,
    most: usize,
    watch: &mut Watch,
    events: &mut Vec<Event>,
) -> Result<(), String> {
    let n = problem.n();
    let Problem { x0, xend, y0, rtol, atol, options, .. } = problem;
    let mut lent = unclean(random, n);
    let before = lent.clone();
    let mut reply = calls::start(*x0, *xend, y0, rtol, atol, *options, &mut lent);
    watch.start(&reply);
    if reply.number < number::DERIVATIVE {
        events.push(end(&reply));
        return if lent.is(&before) { Ok(()) } else { Err("a refused start changed what was lent".to_string()) };
    }
    if !is_cleared(&lent, problem) || lent.question[n..].iter().any(|&x| x != MARK) {
        return Err("the start left other work, pivots or question".to_string());
    }
    if let Some(field) = fixed::begins_otherwise(&lent.session, problem) {
        return Err(format!("the start left another record: {field}"));
    }
    let fixed = Fixed::new(problem);
    let mut asked = 0;
    let restless = random.below(4) == 0;
    while events.len() <= most {
        if !fixed.stays(&lent.session) {
            return Err("settings, limits or tolerances of the session are not those of the start".to_string());
        }
        events.push(question(&reply, &lent, n));
        if is_end(reply.number) {
            return stays_finished(&mut lent, n);
        }
        if reply.number < number::DERIVATIVE {
            return Err("a reply of the kind and length asked was refused".to_string());
        }
        let given = given(&reply, &lent, problem, &mut asked);
        if restless && random.below(8) == 0 {
            disturb(random, &given, &mut lent)?;
        }
        watch.before(&lent, n);
        reply = call(&given, &mut lent, n)?;
        watch.after(&given, &reply, &lent, n);
        if count(&lent.session, Field::phase) != phase::DIFFERENCE_COLUMN && count(&lent.session, Field::column) != 0 {
            return Err("a column is kept where no Jacobian by differences is running".to_string());
        }
    }
    Ok(())
}
