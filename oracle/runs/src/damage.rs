//! Calls with something damaged, a field or a byte of the session, a length, a kind, an argument: refused with nothing
//! changed, or a step that the ranges allow, and never a crash.

use crate::calls::{self, Lent, Reply, number};
use crate::cases::Random;
use crate::live::{self, Live};
use crate::model::{self, Refusal};
use crate::ours::given;
use crate::problem::{Problem, pick};
use crate::refusals::{accepted, is, provoke, snapshot};
use crate::report::{Report, Tally, all_same};
use crate::session::{FIELDS, Field, LENGTH, count, set_count, set_word};
use reference::methods::LSODA;

pub fn compare(report: &mut Report, size: u64, seed: u64) {
    let mut random = Random::new(seed, "damage");
    every_byte(report, &mut random);
    replies(report, &mut random, size * 6 / 10);
    starts(report, &mut random, size * 3 / 10);
    interpolations(report, &mut random, size / 10);
}

const SPECIAL: [f64; 8] = [f64::NAN, f64::INFINITY, f64::NEG_INFINITY, 0.0, -0.0, f64::MAX, 5.0e-324, -1.0];

// ---- replies

/// Each byte of a session of each phase, replaced.
fn every_byte(report: &mut Report, random: &mut Random) {
    let mut tally = Tally::new("sessions with one byte replaced, each byte at each phase");
    let mut refused = 0;
    for live in live::pool(random, 1) {
        for byte in 0..LENGTH {
            let now = live.lent.session[byte];
            for other in [now ^ 1, now ^ 0x80, now.wrapping_add(1), !now] {
                let mut live = live.clone();
                live.lent.session[byte] = other;
                refused += u64::from(answers(&mut tally, random, live));
            }
        }
    }
    report.end(tally, format!("{refused} refused"));
}

/// Makes the call, and says whether it was to be refused.
fn answers(tally: &mut Tally, random: &mut Random, live: Live) -> bool {
    let Live { mut lent, given, problem, .. } = live;
    let expected = model::of_reply(given.kind, given.numbers.len(), &lent);
    let before = lent.clone();
    let reply = calls::reply(given.kind, &given.numbers, given.time, &mut lent);
    let right = match expected {
        Some(number) => is(&reply, Refusal { number, index: 0, value: 0.0 }) && lent.is(&before),
        None => live::is_answer(reply.number) && settings_stay(&before, &lent),
    };
    tally.case(right, || format!("{given:?}: {reply:?}, expected {expected:?}, session {:?}", before.session));
    if expected.is_none() {
        go_on(random, lent, &problem, reply);
    }
    expected.is_some()
}

fn replies(report: &mut Report, random: &mut Random, size: u64) {
    let mut tally = Tally::new("damaged replies");
    let pool = live::pool(random, 40);
    let mut refused = 0;
    for _ in 0..size {
        let mut live = pool[random.below(pool.len() as u64) as usize].clone();
        for _ in 0..pick(&[1, 1, 1, 2], random) {
            damage(random, &mut live);
        }
        refused += u64::from(answers(&mut tally, random, live));
    }
    report.end(tally, format!("{refused} refused"));
}

/// Some more replies from where a damaged session led, which must be answered, if only by a refusal.
fn go_on(random: &mut Random, mut lent: Lent, problem: &Problem, mut reply: Reply) {
    let mut asked = 0;
    for _ in 0..random.below(6) {
        if !(number::DERIVATIVE..=number::REPORT).contains(&reply.number) {
            return;
        }
        let given = given(&reply, &lent, problem, &mut asked);
        reply = calls::reply(given.kind, &given.numbers, given.time, &mut lent);
    }
}

fn settings_stay(before: &Lent, after: &Lent) -> bool {
    let fixed = 8..8 * Field::meth as usize;
    before.session[fixed.clone()] == after.session[fixed]
        && before.session[8 * FIELDS.len()..] == after.session[8 * FIELDS.len()..]
}

fn damage(random: &mut Random, live: &mut Live) {
    let Live { n, lent, given, .. } = live;
    let n = *n;
    match random.below(16) {
        0..=6 if lent.session.len() == LENGTH => {
            let field = pick(FIELDS, random);
            let value = edge(random, field, n as u64, count(&lent.session, field));
            set_count(&mut lent.session, field, value);
        }
        7 if lent.session.len() == LENGTH => {
            let word = random.within(FIELDS.len(), LENGTH / 8 - 1);
            set_word(&mut lent.session, word, random.one_of(&SPECIAL).to_bits());
        }
        8..=10 if lent.session.len() == LENGTH => {
            // Mostly where the fields are: the tolerances take up two thirds.
            let bytes = if random.below(4) == 0 { LENGTH } else { 8 * FIELDS.len() };
            lent.session[random.below(bytes as u64) as usize] = random.word() as u8;
        }
        11 if !lent.pivots.is_empty() => {
            let at = random.below(lent.pivots.len() as u64) as usize;
            lent.pivots[at] = pick(&[0, n - 1, n, 64, usize::MAX], random);
        }
        12 => {
            let length = pick(&[0, 1, n, n * n, 14 * n + 6, n * n + 19 * n, LENGTH, LENGTH - 1, LENGTH + 8], random);
            match random.below(4) {
                0 => lent.work.resize(length, 1.0),
                1 => lent.pivots.resize(length, 0),
                2 => lent.session.resize(length, 0),
                _ => lent.question.resize(length, 1.0),
            }
        }
        13 => given.kind = pick(&[0, 1, 2, 3, 4, 5, 6, usize::MAX], random),
        14 => given.numbers.resize(pick(&[0, 1, n - 1, n, n + 1, n * n], random), 1.0),
        _ => {
            given.time = random.one_of(&SPECIAL);
            given.numbers.iter_mut().for_each(|x| *x = random.one_of(&SPECIAL));
            let at = random.below(lent.work.len().max(1) as u64) as usize;
            if let Some(x) = lent.work.get_mut(at) {
                *x = random.one_of(&SPECIAL);
            }
        }
    }
}

/// A value at an end of the field's range, next to the one that stands, or any.
fn edge(random: &mut Random, field: Field, n: u64, now: u64) -> u64 {
    let (low, high) = model::range(field);
    let any = pick(&[random.word(), random.below(100), random.one_of(&SPECIAL).to_bits()], random);
    let ends = [low, high, low.wrapping_sub(1), high.wrapping_add(1), now.wrapping_add(1), now.wrapping_sub(1)];
    let sized = [n, n - 1, n + 1, 12 * n, 13 * n, 1 << 62, 1 << 63, u64::MAX];
    match random.below(3) {
        0 => any,
        1 => pick(&sized, random),
        _ => pick(&ends, random),
    }
}

// ---- starts

fn starts(report: &mut Report, random: &mut Random, size: u64) {
    let mut tally = Tally::new("damaged starts");
    let mut refused = 0;
    for _ in 0..size {
        let (mut start, mut lent) = accepted(random);
        for _ in 0..random.within(0, 2) {
            provoke(random.within(1, 11), random, &mut start, &mut lent);
        }
        let special = random.one_of(&SPECIAL);
        let n = start.y0.len();
        match random.below(12) {
            0 => start.x0 = special,
            1 => start.xend = special,
            2 => start.y0[random.below(n as u64) as usize] = special,
            3 => start.rtol = vec![special; n],
            4 => start.atol = vec![special],
            5 => (start.options.has_max_step, start.options.max_step) = (1, special),
            6 => (start.options.has_min_step, start.options.min_step) = (usize::MAX, special),
            7 => (start.options.has_first_step, start.options.first_step) = (1, special),
            8 => lent.work.resize(random.below(200) as usize, special),
            9 => lent.pivots.resize(random.below(10) as usize, 7),
            10 => lent.session.resize(random.below(3000) as usize, 7),
            _ => lent.question.resize(random.below(100) as usize, special),
        }
        let expected = model::of_start(&start, &lent);
        let before = lent.clone();
        let model::Start { x0, xend, y0, rtol, atol, options } = &start;
        let reply = calls::start(*x0, *xend, y0, rtol, atol, *options, &mut lent);
        refused += u64::from(expected.is_some());
        let right = match expected {
            Some(expected) => is(&reply, expected) && lent.is(&before),
            None => reply.number == number::DERIVATIVE,
        };
        tally.case(right, || format!("{reply:?}, expected {expected:?}, {start:?}"));
    }
    report.end(tally, format!("{refused} refused"));
}

// ---- interpolations

/// Puts a number somewhere in the first so many of the list.
fn put(x: f64, random: &mut Random, list: &mut [f64], first: usize) {
    if !list.is_empty() {
        let at = random.below(list.len().min(first) as u64) as usize;
        list[at] = x;
    }
}

/// Where ours answers 0 the reference gives the same pose; where ours refuses, the output stays.
fn interpolations(report: &mut Report, random: &mut Random, size: u64) {
    let mut tally = Tally::new("damaged interpolations");
    let mut refused = 0;
    for _ in 0..size {
        let (n, order) = (random.within(0, 8), random.within(0, 12));
        let mut cont = snapshot(random, n, order);
        let mut length = n;
        for _ in 0..random.below(3) {
            match random.below(6) {
                0 => length = random.below(20) as usize,
                1 => cont.truncate(random.below(30) as usize),
                2 => cont.resize(random.below(60) as usize, 1.5),
                3 => put(random.one_of(&SPECIAL), random, &mut cont, 6),
                4 => put(random.one_of(&SPECIAL), random, &mut cont, usize::MAX),
                _ => put(random.below(140) as f64 * 0.5, random, &mut cont, 2),
            }
        }
        let xi = if random.below(3) == 0 { random.one_of(&SPECIAL) } else { 0.75 };
        let before = vec![0.125; length];
        let (mut ours, mut theirs) = (before.clone(), before.clone());
        let number = calls::interpolate(xi, &mut ours, &cont);
        let expected = model::of_interpolation(&cont, length);
        if expected == 0 {
            LSODA::interpolate(xi, &mut theirs, &cont, 0.0, 0.0);
        } else {
            refused += 1;
        }
        let right = number == expected && all_same(&ours, &theirs);
        tally.case(right, || format!("{number}, expected {expected}, {cont:?} at {xi:e}: {ours:?}, {theirs:?}"));
    }
    report.end(tally, format!("{refused} refused"));
}
