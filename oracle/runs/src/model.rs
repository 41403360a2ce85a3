//! Which refusal a call must get, written from the scope's table of refusals and its ranges for 13.

use crate::calls::{Lent, Options, kind};
use crate::session::{ATOL, FIELDS, Field, LENGTH, RTOL, count, phase, word};

#[derive(Clone, Debug)]
pub struct Start {
    pub x0: f64,
    pub xend: f64,
    pub y0: Vec<f64>,
    pub rtol: Vec<f64>,
    pub atol: Vec<f64>,
    pub options: Options,
}

/// A number with the index of 9, 10 and 12 and the value of 11.
#[derive(Clone, Copy, Debug)]
pub struct Refusal {
    pub number: usize,
    pub index: usize,
    pub value: f64,
}

fn plain(number: usize) -> Option<Refusal> {
    Some(Refusal { number, index: 0, value: 0.0 })
}

const LARGEST: usize = 1_000_000;

/// Of a start whose y0 is not empty: 1 to 11.
pub fn of_start(start: &Start, lent: &Lent) -> Option<Refusal> {
    let Start { x0, xend, y0, rtol, atol, options } = start;
    let n = y0.len();
    let is_list = |list: &[f64]| list.len() == 1 || list.len() == n;
    if n > 64 {
        return plain(1);
    }
    if !is_list(rtol) || !is_list(atol) {
        return plain(2);
    }
    if !has_lengths(lent, n) || lent.session.len() != LENGTH {
        return plain(3);
    }
    let Options { max_steps, mxordn, mxords, maxcor, msbp, mxncf, .. } = *options;
    if [max_steps, mxordn, mxords, maxcor, msbp, mxncf].iter().any(|&setting| setting > LARGEST) {
        return plain(4);
    }
    if max_steps == 0 {
        return plain(5);
    }
    if maxcor == 0 {
        return plain(6);
    }
    if mxordn == 0 || mxords == 0 {
        return plain(7);
    }
    if options.banded != 0 {
        return plain(8);
    }
    for index in 0..n {
        let below = |list: &[f64]| list.get(index).is_some_and(|&x| x < 0.0);
        if below(rtol) {
            return Some(Refusal { number: 9, index, value: 0.0 });
        }
        if below(atol) {
            return Some(Refusal { number: 10, index, value: 0.0 });
        }
    }
    let step = options.first_step;
    if options.has_first_step != 0 && (step == 0.0 || step.is_nan() || step.signum() != (xend - x0).signum()) {
        return Some(Refusal { number: 11, index: 0, value: step });
    }
    None
}

fn has_lengths(lent: &Lent, n: usize) -> bool {
    lent.work.len() == n * n + 19 * n && lent.pivots.len() == n && lent.question.len() == 14 * n + 6
}

/// Of a reply: 3, 13, 14, and 13 for the stored n before the lengths that need it.
pub fn of_reply(kind: usize, length: usize, lent: &Lent) -> Option<usize> {
    let session = &lent.session;
    if session.len() != LENGTH {
        return Some(3);
    }
    let n = count(session, Field::n);
    if !(1..=64).contains(&n) {
        return Some(13);
    }
    if !has_lengths(lent, n as usize) {
        return Some(3);
    }
    if count(session, Field::phase) == phase::FINISHED {
        return Some(14);
    }
    if !in_range(session, &lent.pivots) {
        return Some(13);
    }
    let n = n as usize;
    let asked = match count(session, Field::phase) {
        phase::FIRST_REPORT | phase::REPORT => (kind::CONTINUE..=kind::MODIFIED).contains(&kind) && length == n,
        phase::JACOBIAN_ASKED => kind == kind::JACOBIAN && length == n * n,
        _ => kind == kind::DERIVATIVE && length == n,
    };
    if asked { None } else { Some(14) }
}

/// The least and the greatest that 13 lets a field of its own be, whatever the other fields are.
pub fn range(field: Field) -> (u64, u64) {
    let setting = LARGEST as u64;
    let counted = (1 << 62) - 1;
    match field {
        Field::phase => (0, 10),
        Field::n => (1, 64),
        Field::maxsteps | Field::mxordn | Field::mxords | Field::maxcor => (1, setting),
        Field::msbp | Field::mxncf => (0, setting),
        Field::supplied | Field::given | Field::due | Field::jcur | Field::setup | Field::table => (0, 1),
        Field::meth => (1, 2),
        Field::nq => (1, 12),
        Field::lmax => (2, 13),
        Field::ialth => (1, u64::MAX),
        Field::icount => (20, 1_000_020),
        Field::kflag => (0, 9),
        Field::nslp | Field::nst | Field::nfe | Field::nje | Field::nlu => (0, counted),
        Field::rejected | Field::total | Field::count => (0, counted),
        _ => (0, u64::MAX),
    }
}

fn in_range(session: &[u8], pivots: &[usize]) -> bool {
    let at = |field| count(session, field);
    let alone = FIELDS.iter().all(|&field| {
        let (low, high) = range(field);
        (low..=high).contains(&at(field))
    });
    if !alone {
        return false;
    }
    let n = at(Field::n);
    let is_list = |length: u64| length == 1 || length == n;
    let tolerances = |at: usize, length: u64| {
        (0..length as usize).all(|i| {
            let x = f64::from_bits(word(session, at + i));
            x.is_nan() || x >= 0.0
        })
    };
    is_list(at(Field::nrtol))
        && is_list(at(Field::natol))
        && tolerances(RTOL, at(Field::nrtol))
        && tolerances(ATOL, at(Field::natol))
        && at(Field::nq) < at(Field::lmax)
        && at(Field::nqnyh) % n == 0
        && (at(Field::nq) * n..=12 * n).contains(&at(Field::nqnyh))
        && at(Field::ncf) < at(Field::mxncf).max(1)
        && at(Field::m) < at(Field::maxcor)
        && at(Field::column) < n
        && pivots.iter().all(|&pivot| (pivot as u64) < n)
}

/// Of an interpolation: 15, 16, 17, after the copy of a snapshot as long as the output.
pub fn of_interpolation(snapshot: &[f64], output: usize) -> usize {
    let whole = |x: f64, most: f64| x >= 0.0 && x <= most && x.fract() == 0.0;
    if snapshot.len() == output {
        return 0;
    }
    if snapshot.len() < 6 || !whole(snapshot[0], 64.0) || !whole(snapshot[1], 12.0) {
        return 15;
    }
    let (n, order) = (snapshot[0] as usize, snapshot[1] as usize);
    if output != n {
        return 16;
    }
    if snapshot.len() - 6 < (order + 1) * n || snapshot[3] == 0.0 {
        return 17;
    }
    0
}

/// Whether the weights of the start are refused, and at which index: 12 after the first derivative.
pub fn weight_of_start(start: &Start) -> Option<usize> {
    let of = |list: &[f64], i: usize| list[if list.len() == 1 { 0 } else { i }];
    (0..start.y0.len()).find(|&i| of(&start.rtol, i) * start.y0[i].abs() + of(&start.atol, i) <= 0.0)
}

/// Whether a session was left finished.
pub fn is_finished(session: &[u8]) -> bool {
    count(session, Field::phase) == phase::FINISHED
}
