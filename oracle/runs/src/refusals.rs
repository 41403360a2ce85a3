//! Every refusal provoked alone and in pairs: the lower number wins, and nothing that was lent changes.

use crate::calls::{self, Lent, Reply, kind, number};
use crate::cases::Random;
use crate::live;
use crate::model::{self, Refusal, Start};
use crate::problem::pick;
use crate::report::{Report, Tally, same};
use crate::session::{Field, phase, set_count};

/// Whether a reply is this refusal and says nothing else.
pub fn is(reply: &Reply, refusal: Refusal) -> bool {
    let Refusal { number, index, value } = refusal;
    let rest = [reply.count, reply.order, reply.nfe, reply.nje, reply.nlu, reply.total, reply.accepted, reply.rejected];
    (reply.number, reply.index) == (number, index)
        && same(reply.value, value)
        && rest.iter().all(|&count| count == 0)
        && [reply.time, reply.previous, reply.h].iter().all(|x| x.to_bits() == 0)
}

/// A start that is accepted, with what it is lent.
pub fn accepted(random: &mut Random) -> (Start, Lent) {
    let n = random.within(1, 6);
    let list = |random: &mut Random| vec![1.0e-3; if random.below(2) == 0 { 1 } else { n }];
    let mut options = calls::defaults();
    options.has_first_step = 1;
    options.first_step = 0.1;
    let (rtol, atol) = (list(random), list(random));
    (Start { x0: 0.0, xend: 1.0, y0: vec![1.0; n], rtol, atol, options }, Lent::new(n))
}

/// Makes a start one that this number refuses, at a random place.
pub fn provoke(number: usize, random: &mut Random, start: &mut Start, lent: &mut Lent) {
    let options = &mut start.options;
    let any = |random: &mut Random, length: usize| random.below(length as u64) as usize;
    match number {
        1 => start.y0.resize(random.within(65, 90), 1.0),
        2 => {
            let n = start.y0.len();
            let wrong = pick(&[0, n + 1, n + 2, 200], random);
            let list = if random.below(2) == 0 { &mut start.rtol } else { &mut start.atol };
            list.resize(wrong, 1.0e-3);
        }
        3 => match random.below(8) {
            0 => lent.work.push(0.0),
            1 => _ = lent.work.pop(),
            2 => lent.pivots.push(0),
            3 => _ = lent.pivots.pop(),
            4 => lent.session.push(0),
            5 => _ = lent.session.pop(),
            6 => lent.question.push(0.0),
            _ => _ = lent.question.pop(),
        },
        4 => {
            let large = pick(&[1_000_001, 1 << 40, usize::MAX], random);
            match random.below(6) {
                0 => options.max_steps = large,
                1 => options.mxordn = large,
                2 => options.mxords = large,
                3 => options.maxcor = large,
                4 => options.msbp = large,
                _ => options.mxncf = large,
            }
        }
        5 => options.max_steps = 0,
        6 => options.maxcor = 0,
        7 if random.below(2) == 0 => options.mxordn = 0,
        7 => options.mxords = 0,
        8 => options.banded = pick(&[1, 7, usize::MAX], random),
        9 | 10 => {
            let list = if number == 9 { &mut start.rtol } else { &mut start.atol };
            if !list.is_empty() {
                let at = any(random, list.len());
                list[at] = random.one_of(&[-1.0e-3, -5.0e-324, f64::NEG_INFINITY]);
            }
        }
        _ => {
            options.has_first_step = pick(&[1, 3], random);
            options.first_step = random.one_of(&[0.0, -0.0, f64::NAN, -0.1, f64::NEG_INFINITY]);
        }
    }
}

pub fn compare(report: &mut Report, times: u64, seed: u64) {
    let mut random = Random::new(seed, "refusals");
    starts(report, &mut random, times);
    after_first_derivative(report, &mut random, times);
    replies(report, &mut random, times);
    interpolations(report, &mut random, times);
    wrong_kinds(report, &mut random);
}

/// 1 to 11, alone and in pairs; 9 and 10 go index by index.
fn starts(report: &mut Report, random: &mut Random, times: u64) {
    let mut tally = Tally::new("refused starts, 1 to 11 alone and in pairs");
    for (a, b) in pairs(&[1, 2, 3, 4, 5, 6, 7, 8, 9, 10, 11]) {
        for _ in 0..times {
            let (mut start, mut lent) = accepted(random);
            // A setting of 0 that another provocation makes too large is no longer 0: the later one goes first.
            if a != b {
                provoke(b, random, &mut start, &mut lent);
            }
            provoke(a, random, &mut start, &mut lent);
            let expected = model::of_start(&start, &lent);
            let before = lent.clone();
            let Start { x0, xend, y0, rtol, atol, options } = &start;
            let reply = calls::start(*x0, *xend, y0, rtol, atol, *options, &mut lent);
            let lower = expected.is_some_and(|expected| expected.number == a || (a, expected.number) == (9, 10));
            let right = lower && is(&reply, expected.unwrap()) && lent.is(&before);
            tally.case(right, || format!("{a} with {b}: {reply:?}, {expected:?}, {start:?}"));
        }
    }
    let mut lent = Lent::new(3);
    let before = lent.clone();
    let mut options = calls::defaults();
    options.max_steps = 0;
    let reply = calls::start(f64::NAN, 0.0, &[], &[], &[-1.0; 90], options, &mut lent);
    let nothing = Refusal { number: number::SUCCESS, index: 0, value: 0.0 };
    tally.case(is(&reply, nothing) && lent.is(&before), || format!("empty y0 precedes everything: {reply:?}"));
    report.end(tally, "");
}

/// Each alone, where both are the same, and each with each later one.
fn pairs(numbers: &[usize]) -> Vec<(usize, usize)> {
    let from = |(i, &a): (usize, &usize)| numbers[i..].iter().map(move |&b| (a, b)).collect::<Vec<_>>();
    numbers.iter().enumerate().flat_map(from).collect()
}

/// 12, then 11 for the computed step.
fn after_first_derivative(report: &mut Report, random: &mut Random, times: u64) {
    let mut tally = Tally::new("refused after the first derivative, 12 and 11");
    for (a, b) in pairs(&[12, 11]) {
        for _ in 0..times {
            let (mut start, mut lent) = accepted(random);
            start.options.has_first_step = 0;
            let n = start.y0.len();
            if [a, b].contains(&12) {
                let at = random.below(n as u64) as usize;
                start.y0[at] = 0.0;
                start.atol = vec![1.0e-3; n];
                start.atol[at] = 0.0;
            }
            if [a, b].contains(&11) {
                start.xend = random.one_of(&[start.x0, f64::NAN]);
            }
            let Start { x0, xend, y0, rtol, atol, options } = &start;
            calls::start(*x0, *xend, y0, rtol, atol, *options, &mut lent);
            let question = lent.question.clone();
            let reply = calls::reply(kind::DERIVATIVE, &vec![0.5; n], 0.0, &mut lent);
            let expected = match model::weight_of_start(&start) {
                Some(index) => Refusal { number: 12, index, value: 0.0 },
                None => Refusal { number: 11, index: 0, value: reply.value },
            };
            let finished = model::is_finished(&lent.session) && question == lent.question;
            let right = reply.number == a && is(&reply, expected) && finished;
            tally.case(right, || format!("{a} with {b}: {reply:?}, {expected:?}, {start:?}"));
        }
    }
    report.end(tally, "");
}

/// What a reply is refused for, in the order of its checks.
#[derive(Clone, Copy, Debug, PartialEq, Eq, PartialOrd, Ord)]
enum Fault {
    SessionLength,
    StoredN,
    Lengths,
    Finished,
    Value,
    Pivot,
    Kind,
    Length,
}

use Fault::*;

/// In the order of the checks. A finished session is judged by its n and phase alone, so Finished stands before Value.
const FAULTS: [(Fault, usize); 8] = [
    (SessionLength, 3),
    (StoredN, 13),
    (Lengths, 3),
    (Finished, 14),
    (Value, 13),
    (Pivot, 13),
    (Kind, 14),
    (Length, 14),
];

fn spoil(fault: Fault, random: &mut Random, live: &mut live::Live) {
    let lent = &mut live.lent;
    match fault {
        SessionLength => match random.below(3) {
            0 => lent.session.push(0),
            1 => _ = lent.session.pop(),
            _ => lent.session.clear(),
        },
        StoredN if lent.session.len() > 16 => set_count(&mut lent.session, Field::n, pick(&[0, 65, u64::MAX], random)),
        Lengths => match random.below(6) {
            0 => lent.work.push(0.0),
            1 => lent.work.clear(),
            2 => lent.pivots.push(0),
            3 => lent.pivots.clear(),
            4 => lent.question.push(0.0),
            _ => lent.question.clear(),
        },
        Finished if lent.session.len() > 16 => set_count(&mut lent.session, Field::phase, phase::FINISHED),
        Value if lent.session.len() > 1000 => {
            let (field, value) = pick(
                &[
                    (Field::nq, 13),
                    (Field::meth, 0),
                    (Field::lmax, 14),
                    (Field::kflag, 10),
                    (Field::nfe, 1 << 62),
                    (Field::icount, 19),
                    (Field::ialth, 0),
                    (Field::mxordn, 0),
                    (Field::setup, 2),
                    (Field::nrtol, 65),
                    (Field::column, 64),
                ],
                random,
            );
            set_count(&mut lent.session, field, value);
        }
        Pivot if !lent.pivots.is_empty() => lent.pivots[0] = pick(&[64, usize::MAX], random),
        Kind => live.given.kind = pick(&[0, 6, usize::MAX], random),
        Length => live.given.numbers.push(0.0),
        _ => {}
    }
}

/// 3, 13 and 14, each cause alone and with each later one, at every phase.
fn replies(report: &mut Report, random: &mut Random, times: u64) {
    let mut tally = Tally::new("refused replies, 3, 13 and 14 alone and in pairs");
    let pool = live::pool(random, 6);
    for (i, &(first, number)) in FAULTS.iter().enumerate() {
        for &(second, _) in &FAULTS[i..] {
            for _ in 0..times {
                let mut live = pool[random.below(pool.len() as u64) as usize].clone();
                // A finished session hides every later fault.
                if model::is_finished(&live.lent.session) && first > Finished {
                    continue;
                }
                if first != second {
                    spoil(second, random, &mut live);
                }
                spoil(first, random, &mut live);
                let live::Live { mut lent, given, .. } = live;
                let expected = model::of_reply(given.kind, given.numbers.len(), &lent);
                let before = lent.clone();
                let reply = calls::reply(given.kind, &given.numbers, given.time, &mut lent);
                let refusal = Refusal { number, index: 0, value: 0.0 };
                let right = expected == Some(number) && is(&reply, refusal) && lent.is(&before);
                tally.case(right, || format!("{first:?} with {second:?}: {reply:?}, expected {expected:?}"));
            }
        }
    }
    report.end(tally, "");
}

/// Each kind of reply at each phase: 14 unless it is the one asked for.
fn wrong_kinds(report: &mut Report, random: &mut Random) {
    let mut tally = Tally::new("replies of each kind and length at each phase");
    for live in live::pool(random, 20) {
        let n = live.n;
        for kind in [0, 1, 2, 3, 4, 5, 6, usize::MAX] {
            for length in [0, 1, n.saturating_sub(1), n, n + 1, n * n, n * n + 1] {
                let mut lent = live.lent.clone();
                let expected = model::of_reply(kind, length, &lent);
                let reply = calls::reply(kind, &vec![0.5; length], 0.25, &mut lent);
                let right = match expected {
                    Some(number) => is(&reply, Refusal { number, index: 0, value: 0.0 }) && lent.is(&live.lent),
                    None => live::is_answer(reply.number),
                };
                tally.case(right, || format!("kind {kind}, {length} numbers: {reply:?}, expected {expected:?}"));
            }
        }
    }
    report.end(tally, "");
}

/// A snapshot of n states at this order.
pub fn snapshot(random: &mut Random, n: usize, order: usize) -> Vec<f64> {
    let mut snapshot = vec![n as f64, order as f64, 1.0, 0.5, 0.5, f64::EPSILON];
    snapshot.extend((0..(order + 1) * n).map(|_| random.below(1000) as f64 * 0.01));
    snapshot
}

/// 15, 16 and 17, alone and in pairs; the output stays as it was.
fn interpolations(report: &mut Report, random: &mut Random, times: u64) {
    let mut tally = Tally::new("refused interpolations, 15 to 17 alone and in pairs");
    for (a, b) in pairs(&[15, 16, 17]) {
        for _ in 0..times {
            let (n, order) = (random.within(1, 8), random.within(0, 12));
            let mut snapshot = snapshot(random, n, order);
            let mut output = vec![0.125; n];
            if [a, b].contains(&17) {
                match random.below(2) {
                    0 => snapshot[3] = random.one_of(&[0.0, -0.0]),
                    _ => _ = snapshot.pop(),
                }
            }
            if [a, b].contains(&16) {
                let wrong = pick(&[n + 1, n - 1, 2 * n, 0], random);
                output.resize(if wrong == snapshot.len() { 0 } else { wrong }, 0.125);
            }
            if a == 15 {
                match random.below(3) {
                    0 => snapshot[0] = random.one_of(&[65.0, -1.0, n as f64 + 0.5, f64::NAN, f64::INFINITY, 1.0e300]),
                    1 => snapshot[1] = random.one_of(&[13.0, -1.0, 0.5, f64::NAN, f64::NEG_INFINITY]),
                    _ => snapshot.truncate(pick(&[0, 1, 5], random)),
                }
                if snapshot.len() == output.len() {
                    continue;
                }
            }
            let before = output.clone();
            let number = calls::interpolate(0.75, &mut output, &snapshot);
            let expected = model::of_interpolation(&snapshot, output.len());
            let right = number == a && expected == a && output == before;
            tally.case(right, || format!("{a} with {b}: {number}, {snapshot:?} to {}", output.len()));
        }
    }
    report.end(tally, "");
}
