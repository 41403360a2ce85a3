//! Crafted states: a session within the ranges of 13 and work to go with it, at a phase whose reply begins a step.
//! Whole runs stay at orders 1 and 2; from here a step has any order, either family, set or zero coefficients, and any
//! matrix.

use crate::calls::{Lent, kind};
use crate::cases::Random;
use crate::mirror::{self, SET};
use crate::ours::Given;
use crate::problem::{self, pick, sized};
use crate::session::{ATOL, Field, ICOUNT, RTOL, count, float, phase, set_count, set_float, set_word};
use crate::sides::{Shape, Side};
use reference::reach::{self, SM1};

#[derive(Clone)]
pub struct Crafted {
    pub n: usize,
    pub phase: u64,
    pub lent: Lent,
    pub rtol: Vec<f64>,
    pub atol: Vec<f64>,
    /// The reply that begins the step.
    pub given: Given,
    pub side: Side,
}

/// After so many requests a crafted step is brought to its end.
const MOST: u64 = 3_000;

/// Mostly the usual number, sometimes one of the others.
fn or_else(usual: f64, random: &mut Random, others: &[f64]) -> f64 {
    if random.below(20) == 0 { random.one_of(others) } else { usual }
}

/// Sizes that are not below 0: which zero `max` gives of two is open in the reference, so −0.0 is not among them.
const SIZES: [f64; 8] = [0.0, 1.0, 1.0e-300, 1.0e300, f64::INFINITY, f64::NAN, 5.0e-324, 0.3];
const ANY: [f64; 9] = [0.0, -0.0, -1.0, f64::NAN, f64::INFINITY, f64::NEG_INFINITY, 1.0e300, -1.0e-300, 1.0];

impl Crafted {
    pub fn draw(random: &mut Random) -> Self {
        let most = pick(&[1, 2, 3, 4, 6, 8, 8, if random.below(20) == 0 { 64 } else { 2 }], random);
        let n = if random.below(400) == 0 { random.within(60, 64) } else { random.within(1, most) };
        let mut lent = Lent::new(n);
        let phase = match random.below(8) {
            0 => phase::FIRST_REPORT,
            1 => phase::FIRST_MODIFIED,
            2 => phase::MODIFIED,
            _ => phase::REPORT,
        };
        let session = &mut lent.session;
        set_count(session, Field::n, n as u64);
        set_count(session, Field::phase, phase);
        limits(random, session, n);
        record(random, session, n);
        let step = sized(random, -3, 0);
        sizes(random, session, step);
        let rtol = tolerances(random, session, n, Field::nrtol, RTOL);
        let atol = tolerances(random, session, n, Field::natol, ATOL);
        let side = fill(random, &mut lent, n, step);
        let given = reply(random, &lent, n, phase, &side);
        Crafted { n, phase, lent, rtol, atol, given, side }
    }
}

/// What a start fixes.
fn limits(random: &mut Random, session: &mut [u8], n: usize) {
    let mut set = |field, value: usize| set_count(session, field, value as u64);
    set(Field::maxsteps, random.within(500, 1_000_000));
    set(Field::mxordn, pick(&[random.within(1, 15), 12, 12, 1_000_000], random));
    set(Field::mxords, pick(&[random.within(1, 7), 5, 5, 1_000_000], random));
    set(Field::maxcor, pick(&[random.within(1, 8), 3, 3, 30, 1_000_000], random));
    set(Field::msbp, pick(&[random.within(0, 20), random.within(21, 600), 1_000_000], random));
    set(Field::mxncf, pick(&[random.within(0, 10), random.within(0, 10), random.within(11, 200), 1_000_000], random));
    set(Field::supplied, random.below(2) as usize);
    set(Field::given, random.below(2) as usize);
    set(Field::nrtol, pick(&[1, n], random));
    set(Field::natol, pick(&[1, n], random));
}

/// Orders, counts and flags. What belongs to a step under way is overwritten when one begins.
fn record(random: &mut Random, session: &mut [u8], n: usize) {
    let (mxncf, maxcor) = (count(session, Field::mxncf).max(1), count(session, Field::maxcor));
    let mut set = |field, value: u64| set_count(session, field, value);
    let order = random.within(1, 12);
    let reset = if random.below(3) == 0 { random.within(order, 12) } else { order };
    set(Field::meth, 1 + random.below(2));
    set(Field::nq, order as u64);
    set(Field::lmax, random.within(order + 1, 13) as u64);
    set(Field::nqnyh, (reset * n) as u64);
    set(Field::ialth, pick(&[1, 1, 1, 1 + random.below(5), random.word().max(1)], random));
    let icount = [ICOUNT, ICOUNT, ICOUNT + 1, ICOUNT - 1, ICOUNT - random.below(999_980), ICOUNT + random.below(21)];
    set(Field::icount, icount[random.below(6) as usize]);
    set(Field::table, u64::from(random.below(8) != 0));
    let accepted = pick(&[random.below(30), random.below(500), 0], random);
    set(Field::nst, accepted);
    if random.below(50) == 0 {
        set(Field::maxsteps, accepted.max(1));
    }
    set(Field::nslp, pick(&[accepted, random.below(accepted + 1), random.below(1 << 61)], random));
    for field in [Field::nfe, Field::nje, Field::nlu, Field::rejected, Field::total, Field::count] {
        set(field, pick(&[random.below(1000), random.below(1 << 61), 1], random) + 1);
    }
    set(Field::kflag, random.below(10));
    set(Field::ncf, random.below(mxncf));
    set(Field::m, random.below(maxcor));
    set(Field::column, random.below(n as u64));
    set(Field::due, random.below(2));
    set(Field::jcur, random.below(2));
    set(Field::setup, u64::from(random.below(10) == 0));
}

/// The floats: mostly such as a run could hold, with a step of the given size.
fn sizes(random: &mut Random, session: &mut [u8], step: f64) {
    let reset = (count(session, Field::nqnyh) / count(session, Field::n)) as usize;
    let el0 = SET.elco[13 * (reset - 1)];
    let order = count(session, Field::nq) as usize;
    let tn = sized(random, -1, 1);
    let to_end = match random.below(12) {
        0..=1 => step * (0.1 + random.below(10) as f64 * 0.1),
        2 => -step,
        _ => step * 1000.0,
    };
    let mut set = |field, value: f64| set_float(session, field, value);
    set(Field::tn, tn);
    set(Field::told, sized(random, -1, 1));
    set(Field::h, step);
    set(Field::hu, or_else(step, random, &ANY));
    set(Field::xend, or_else(tn + to_end, random, &[tn, tn + step, f64::NAN, f64::INFINITY, -1.0e300]));
    set(Field::direction, or_else(step.signum(), random, &[1.0, -1.0, f64::NAN, 1.0e-5]));
    // At the last one the step is as small as a failure lets it be, but for a rounding.
    let hmin = pick(&[0.0, 0.0, 0.0, 0.0, 0.01, 0.5, 1.0, 1.0 / 1.00001], random) * step.abs();
    set(Field::hmin, or_else(hmin, random, &SIZES));
    let hmxi = pick(&[0.0, 0.1 / step.abs(), 0.9 / step.abs(), 2.0 / step.abs()], random);
    set(Field::hmxi, or_else(hmxi, random, &SIZES));
    set(Field::rc, or_else(0.8 + random.below(400) as f64 * 0.001, random, &ANY));
    set(Field::el0, or_else(el0, random, &SIZES));
    set(Field::conit, or_else(0.5 / (reset as f64 + 2.0), random, &SIZES));
    set(Field::rmax, or_else(pick(&[2.0, 10.0, 1.0e4], random), random, &SIZES));
    for field in [Field::pdest, Field::pdlast, Field::pdnorm] {
        let rate = if random.below(2) == 0 { 0.0 } else { sized(random, -6, 3).abs() };
        set(field, or_else(rate, random, &SIZES));
    }
    if random.below(8) == 0 {
        // A cut step is then next to its order's stability limit, on either side of the margin that the rescale leaves.
        let margin = 1.0e-5 * (random.below(30) as f64 * 0.1 - 2.0);
        set(Field::pdlast, SM1[order - 1] / to_end.abs() * (1.0 + margin));
    }
    set(Field::convrate, or_else(pick(&[0.7, 0.1, 2.0], random), random, &SIZES));
    for field in [Field::pnorm, Field::rate, Field::delp] {
        set(field, or_else(1.0, random, &ANY));
    }
}

fn tolerances(random: &mut Random, session: &mut [u8], n: usize, field: Field, at: usize) -> Vec<f64> {
    let length = count(session, field) as usize;
    assert!(length == 1 || length == n);
    let none = random.below(5) == 0;
    let usual = |random: &mut Random| if none { 0.0 } else { sized(random, -8, -2).abs() };
    let list: Vec<f64> = (0..length).map(|_| or_else(usual(random), random, &SIZES)).collect();
    for (i, x) in list.iter().enumerate() {
        set_word(session, at + i, x.to_bits());
    }
    list
}

/// Columns that fall off, the other vectors and a matrix; then weights and a side under which the step's error is about
/// what is allowed.
fn fill(random: &mut Random, lent: &mut Lent, n: usize, step: f64) -> Side {
    let wild = if random.below(8) == 0 { 200 } else { 0 };
    let entry = |usual: f64, random: &mut Random| {
        if wild != 0 && random.below(wild) == 0 { random.one_of(&ANY) } else { usual }
    };
    let fall = pick(&[1.0, 0.3, 0.1, 0.01, 1.0e-4], random);
    let slope = sized(random, -4, 0).abs();
    for i in 0..n {
        let mut size = slope;
        lent.work[i] = entry(sized(random, -2, 1), random);
        for j in 1..13 {
            lent.work[i + j * n] = entry(size * sized(random, -1, -1), random);
            size *= fall;
        }
    }
    for at in 14 * n..19 * n {
        lent.work[at] = entry(slope * sized(random, -3, 0), random);
    }
    matrix(random, lent, n);
    let correction = slope * sized(random, -8, -1).abs();
    weigh(random, lent, n, correction);
    let shape = match random.below(8) {
        0 => problem::shape(random, time(lent), time(lent) + step),
        2 => even(random, lent, n),
        1 => Shape::Spike { at: time(lent), c: sized(random, -6, 2), e: 10f64.powi(-(random.below(200) as i32)) },
        _ => near(random, lent, n, step, correction),
    };
    let wild = pick(&[0, 0, 0, 0, 0, 0, 100, 10], random);
    let fickle = pick(&[0.0, 0.0, 0.0, 10f64.powi(-(random.below(16) as i32))], random);
    Side { shape, matrix: problem::matrix(random), salt: random.word(), wild, fickle, most: MOST }
}

fn time(lent: &Lent) -> f64 {
    float(&lent.session, Field::tn)
}

/// Weights under which a correction of this size gives an error around 1.
fn weigh(random: &mut Random, lent: &mut Lent, n: usize, correction: f64) {
    let order = count(&lent.session, Field::nq) as usize;
    let allowed = SET.tesco[1 + 3 * (order - 1)] / correction;
    let weight = allowed * sized(random, -5, 1).abs();
    for at in 13 * n..14 * n {
        lent.work[at] = weight * (0.5 + random.below(1000) as f64 * 0.001);
    }
    if random.below(15) == 0 {
        lent.work[13 * n + random.below(n as u64) as usize] = random.one_of(&SIZES);
    }
}

/// A side that asks for corrections of this size from the prediction on. Sometimes column lmax − 1, which the estimate
/// for a higher order is compared with, is that correction, so that a raise pays.
fn near(random: &mut Random, lent: &mut Lent, n: usize, step: f64, correction: f64) -> Shape {
    let mut state = mirror::state(&lent.session);
    let (lmax, reset) = (state.lmax, state.nqnyh / n);
    let mut predicted = lent.work[..13 * n].to_vec();
    reach::stoda_get_predicted_values(&mut state, &mut predicted);
    let raise = reset + 1 < lmax && random.below(3) == 0;
    let mut slopes = Vec::new();
    for i in 0..n {
        let correction = correction * sized(random, -1, -1);
        slopes.push((predicted[n + i] + correction) / step);
        if raise {
            lent.work[i + (lmax - 1) * n] = correction * (1.0 + 0.01 * sized(random, -3, -1));
        }
    }
    let noise = pick(&[0.0, 0.0, 1.0e-6, 1.0e-2, 1.0], random) * correction / step;
    // The corrections of Adams grow by h·el0 times the pull. At about 1024 the rate has its bound.
    let pull = match random.below(16) {
        0..=7 => 0.0,
        8 => (1000.0 + random.below(50) as f64) / (step * SET.elco[13 * (reset - 1)]),
        _ => sized(random, -4, 0) / step,
    };
    Shape::Near { slopes, noise, centre: predicted[..n].to_vec(), pull }
}

/// A step whose numbers have few digits, at order 1 or 2, so that what the tests compare comes out at their bounds
/// exactly: an error of 1, corrections that grow by 2 or by 1024.
fn even(random: &mut Random, lent: &mut Lent, n: usize) -> Shape {
    let power =
        |random: &mut Random, low: i32, high: i32| 2f64.powi(random.within(0, (high - low) as usize) as i32 + low);
    let step = power(random, -6, 0) * pick(&[1.0, -1.0], random);
    let correction = power(random, -8, 0);
    let order = random.within(1, 2);
    let session = &mut lent.session;
    for (field, value) in [(Field::nq, order), (Field::nqnyh, order * n), (Field::lmax, random.within(order + 1, 13))] {
        set_count(session, field, value as u64);
    }
    let tn = random.below(9) as f64;
    set_float(session, Field::tn, tn);
    set_float(session, Field::h, step);
    set_float(session, Field::direction, step.signum());
    set_float(session, Field::xend, tn + pick(&[1.0, 64.0], random) * step);
    set_float(session, Field::hmin, pick(&[0.0, 0.0, 0.5, 1.0], random) * step.abs());
    let weight = SET.tesco[1 + 3 * (order - 1)] / correction * pick(&[0.25, 0.5, 1.0, 1.0, 1.0, 2.0], random);
    lent.work[..13 * n].fill_with(|| (random.below(17) as f64 - 8.0) * 0.0625);
    lent.work[13 * n..14 * n].fill(weight);
    for at in 0..n * n {
        lent.work[19 * n + at] = if at % (n + 1) == 0 { 1.0 } else { 0.0 };
    }
    (0..n).for_each(|k| lent.pivots[k] = k);
    let mut state = mirror::state(&lent.session);
    let mut predicted = lent.work[..13 * n].to_vec();
    reach::stoda_get_predicted_values(&mut state, &mut predicted);
    let slopes = (0..n).map(|i| (predicted[n + i] + correction) / step).collect();
    let growth = pick(&[0.0, 0.5, 1.0, 2.0, -2.0, 1024.0, -1024.0], random);
    let pull = growth / (step * SET.elco[13 * (order - 1)]);
    Shape::Near { slopes, noise: 0.0, centre: predicted[..n].to_vec(), pull }
}

/// Factors near the identity, with a zero or a NaN on the diagonal now and then, and pivots below n.
fn matrix(random: &mut Random, lent: &mut Lent, n: usize) {
    for column in 0..n {
        for row in 0..n {
            let near = if row == column { 1.0 } else { 0.0 };
            lent.work[19 * n + row + column * n] = near + 0.1 * sized(random, -1, -1);
        }
        let last = n - column;
        lent.pivots[column] = column + if random.below(3) == 0 { random.below(last as u64) as usize } else { 0 };
    }
    let k = random.below(n as u64) as usize;
    match random.below(8) {
        0 => lent.work[19 * n + k + k * n] = 0.0,
        1 => lent.work[19 * n + k + k * n] = random.one_of(&ANY),
        2 => lent.pivots[k] = random.below(n as u64) as usize,
        _ => {}
    }
}

fn reply(random: &mut Random, lent: &Lent, n: usize, phase: u64, side: &Side) -> Given {
    let tn = float(&lent.session, Field::tn);
    let column = &lent.work[..n];
    let mut numbers = vec![0.0; n];
    match phase {
        phase::FIRST_MODIFIED | phase::MODIFIED => {
            side.derivative(0, tn, column, &mut numbers);
            Given { kind: kind::DERIVATIVE, numbers, time: f64::NAN }
        }
        _ => {
            numbers.copy_from_slice(column);
            if random.below(10) == 0 {
                numbers[0] = random.one_of(&ANY);
            }
            let time = or_else(tn, random, &ANY);
            Given { kind: kind::CONTINUE, numbers, time }
        }
    }
}
