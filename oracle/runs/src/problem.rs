//! The problem of a whole run, and how problems are drawn.

use crate::calls::{self, Options};
use crate::cases::Random;
use crate::sides::{Answer, Host, Matrix, Said, Shape, Side};

#[derive(Clone, Debug)]
pub struct Problem {
    pub x0: f64,
    pub xend: f64,
    pub y0: Vec<f64>,
    pub rtol: Vec<f64>,
    pub atol: Vec<f64>,
    pub options: Options,
    pub side: Side,
    pub host: Host,
}

/// After so many requests a drawn problem is brought to its end.
const MOST: u64 = 60_000;

/// What a drawn problem is for.
#[derive(Clone, Copy)]
enum Temper {
    /// Runs long: many steps, both families.
    Ordinary,
    /// The same with wild answers and busy hosts.
    Busy,
    /// Every argument at its limits.
    Extreme,
}

impl Problem {
    pub fn draw(random: &mut Random) -> Self {
        let temper = pick(&[Temper::Ordinary, Temper::Busy, Temper::Extreme, Temper::Extreme], random);
        let n = states(random);
        let (x0, xend) = interval(random, temper);
        let options = options(random, temper, n, xend - x0);
        Problem {
            x0,
            xend,
            y0: (0..n).map(|_| state(random, temper)).collect(),
            rtol: tolerances(random, temper, n),
            atol: tolerances(random, temper, n),
            options,
            side: side(random, temper, x0, xend),
            host: host(random, temper),
        }
    }

    /// A long run that goes to BDF and back again and again, where msbp seldom makes a Jacobian due: van der Pol's
    /// equation through many of its turns.
    pub fn relapsing(random: &mut Random) -> Self {
        let mut options = calls::defaults();
        options.max_steps = random.within(1000, 3000);
        options.msbp = pick(&[random.within(21, 400), 1_000_000], random);
        options.maxcor = setting(random, options.maxcor, 1, 8);
        options.mxords = setting(random, options.mxords, 1, 7);
        options.supplied = random.below(2) as usize;
        let mut side = side(random, Temper::Ordinary, 0.0, 0.0);
        let mu = sized(random, 0, 1).abs();
        (side.shape, side.matrix) = (Shape::Oscillator(mu), Matrix::Differences);
        let n = 2 * random.within(1, 2);
        let xend = mu * random.within(5, 50) as f64;
        let y0 = (0..n).map(|_| 2.0 + sized(random, -2, -1)).collect();
        let tolerance = |random: &mut Random| vec![sized(random, -6, -3).abs()];
        let (rtol, atol) = (tolerance(random), tolerance(random));
        Problem { x0: 0.0, xend, y0, rtol, atol, options, side, host: Host::Plain }
    }

    pub fn n(&self) -> usize {
        self.y0.len()
    }

    /// What the host says to a report, after so many requests.
    pub fn says(&self, asked: u64, previous: f64, time: f64, y: &[f64]) -> Said {
        let said = self.host.says(asked, previous, time, y);
        if asked < self.side.most { said } else { Said { answer: Answer::Interrupt, ..said } }
    }
}

pub fn pick<T: Copy>(list: &[T], random: &mut Random) -> T {
    list[random.below(list.len() as u64) as usize]
}

/// Mostly 1 to 8, some up to 64 and some next to it.
fn states(random: &mut Random) -> usize {
    let most = pick(&[1, 2, 3, 3, 4, 4, 6, 8], random);
    match random.below(400) {
        0..=2 => random.within(1, 64),
        3 => random.within(60, 64),
        _ => random.within(1, most),
    }
}

/// A number of either sign whose size is a power of ten between the two.
pub fn sized(random: &mut Random, low: i32, high: i32) -> f64 {
    let size = 10f64.powi(low + random.below((high - low + 1) as u64) as i32);
    let digits = 1.0 + random.below(9000) as f64 / 1000.0;
    if random.below(2) == 0 { size * digits } else { -size * digits }
}

const EXTREMES: [f64; 10] =
    [0.0, -0.0, f64::NAN, f64::INFINITY, f64::NEG_INFINITY, 1.0e300, -1.0e300, 5.0e-324, 1.0e-300, -1.0e-310];

fn extreme(random: &mut Random) -> f64 {
    random.one_of(&EXTREMES)
}

fn interval(random: &mut Random, temper: Temper) -> (f64, f64) {
    let x0 = match random.below(3) {
        0 => 0.0,
        1 => sized(random, -2, 2),
        _ => random.below(20) as f64 - 10.0,
    };
    match (temper, random.below(24)) {
        (Temper::Extreme, 0) => (extreme(random), x0),
        (Temper::Extreme, 1) => (x0, extreme(random)),
        (Temper::Extreme, 2) => (x0, x0),
        (Temper::Extreme, _) => (x0, x0 + sized(random, -12, 6)),
        _ => (x0, x0 + sized(random, -1, 2)),
    }
}

fn state(random: &mut Random, temper: Temper) -> f64 {
    match (temper, random.below(24)) {
        (Temper::Extreme, 0) => extreme(random),
        (_, 0..=3) => 0.0,
        (Temper::Extreme, 4) => sized(random, -200, 200),
        _ => sized(random, -3, 2),
    }
}

fn tolerance(random: &mut Random, temper: Temper) -> f64 {
    match (temper, random.below(24)) {
        (Temper::Extreme, 0) => extreme(random),
        (Temper::Extreme, 1) => sized(random, -300, 300).abs(),
        (Temper::Extreme, 2..=6) => sized(random, -16, 3).abs(),
        (_, 7..=8) => 0.0,
        (_, 9..=14) => sized(random, -4, -1).abs(),
        _ => sized(random, -10, -3).abs(),
    }
}

/// A list of 1, or of n.
fn tolerances(random: &mut Random, temper: Temper, n: usize) -> Vec<f64> {
    let length = if random.below(3) == 0 { n } else { 1 };
    (0..length).map(|_| tolerance(random, temper)).collect()
}

/// A setting: half the time as it is, else up to the usual most, or above it up to the most that a start accepts.
fn setting(random: &mut Random, default: usize, low: usize, usual: usize) -> usize {
    match random.below(16) {
        0..=7 => default,
        8..=12 => random.within(low, usual),
        13..=14 => random.within(usual + 1, 20 * usual),
        _ => pick(&[random.within(usual + 1, 1_000_000), 999_999, 1_000_000], random),
    }
}

fn options(random: &mut Random, temper: Temper, n: usize, difference: f64) -> Options {
    let mut options = calls::defaults();
    options.max_steps = match (temper, random.below(64)) {
        (Temper::Extreme, 0..=15) => random.within(1, 3),
        (Temper::Extreme, _) => random.within(1, 60),
        _ if n > 8 => random.within(20, 150),
        (_, 0) => random.within(400, 3000),
        (_, 1..=15) => random.within(100, 400),
        _ => random.within(20, 120),
    };
    options.maxcor = setting(random, options.maxcor, 1, 8);
    options.mxncf = setting(random, options.mxncf, 0, 10);
    options.msbp = setting(random, options.msbp, 0, 20);
    options.mxordn = setting(random, options.mxordn, 1, 15);
    options.mxords = setting(random, options.mxords, 1, 7);
    options.supplied = random.below(2) as usize * random.within(1, 3);
    let seldom = if matches!(temper, Temper::Extreme) { 3 } else { 8 };
    if random.below(seldom) == 0 {
        options.has_max_step = random.within(1, 2);
        options.max_step = step(random, temper, difference, 0);
    }
    if random.below(seldom) == 0 {
        options.has_min_step = random.within(1, 2);
        options.min_step = step(random, temper, difference, -4);
    }
    if random.below(seldom) == 0 {
        options.has_first_step = random.within(1, 2);
        let size = step(random, temper, difference, -1).abs();
        options.first_step = if random.below(30) == 0 { -size } else { size.copysign(difference) };
    }
    if matches!(temper, Temper::Extreme) && random.below(50) == 0 {
        spoil(random, &mut options);
    }
    options
}

/// A setting that the reference refuses too.
fn spoil(random: &mut Random, options: &mut Options) {
    match random.below(5) {
        0 => options.max_steps = 0,
        1 => options.maxcor = 0,
        2 => options.mxordn = 0,
        3 => options.mxords = 0,
        _ => options.banded = 1,
    }
}

/// A part of the interval, down to so many powers of ten and some more.
fn step(random: &mut Random, temper: Temper, difference: f64, decades: i32) -> f64 {
    match (temper, random.below(12)) {
        (Temper::Extreme, 0) => extreme(random),
        (Temper::Extreme, 1..=3) => difference * sized(random, -14, 3),
        _ => difference * sized(random, decades - 2, decades),
    }
}

pub fn shape(random: &mut Random, x0: f64, xend: f64) -> Shape {
    match random.below(16) {
        0 => Shape::Constant(pick(&[0.0, 1.0, -3.0, 1.0e10], random)),
        1..=6 => {
            let stiff = random.within(0, 5) as i32;
            let rates = (0..random.within(1, 4)).map(|_| sized(random, -1, stiff).abs()).collect();
            let coupling = if random.below(2) == 0 { 0.0 } else { sized(random, -2, 0) };
            Shape::Decay { rates, drift: random.below(3) as f64, coupling }
        }
        7 => Shape::Growth(sized(random, -1, 2)),
        8..=9 => Shape::Oscillator(sized(random, -1, 3)),
        10 => Shape::Kinetics(sized(random, 0, 6).abs()),
        11 => Shape::Rational { c: sized(random, -2, 2), e: sized(random, -12, 0) },
        12 => {
            let at = if random.below(2) == 0 { x0 } else { x0 + 0.5 * (xend - x0) };
            Shape::Spike { at, c: sized(random, -6, 2), e: 10f64.powi(-(random.below(200) as i32)) }
        }
        13 => Shape::EqualRows(pick(&[-1.0, -1.0e3, -1.0e20, 1.0e30], random)),
        14 => Shape::Jumps { by_time: true, decades: random.below(14) },
        _ => Shape::Jumps { by_time: false, decades: random.below(6) },
    }
}

pub fn matrix(random: &mut Random) -> Matrix {
    match random.below(8) {
        0 => Matrix::All(pick(&[0.0, 1.0e30, -1.0e30, -1.0e3], random)),
        1 => Matrix::Jumps,
        _ => Matrix::Differences,
    }
}

fn side(random: &mut Random, temper: Temper, x0: f64, xend: f64) -> Side {
    let wild = match temper {
        Temper::Ordinary => 0,
        Temper::Busy => pick(&[0, 0, 1000, 300], random),
        Temper::Extreme => pick(&[0, 300, 40, 5], random),
    };
    let fickle = pick(&[0.0, 0.0, 0.0, 10f64.powi(-(random.below(16) as i32))], random);
    Side { shape: shape(random, x0, xend), matrix: matrix(random), salt: random.word(), wild, fickle, most: MOST }
}

fn host(random: &mut Random, temper: Temper) -> Host {
    let one_in = match temper {
        Temper::Ordinary => return Host::Plain,
        Temper::Busy => pick(&[10, 30, 60], random),
        Temper::Extreme => pick(&[1, 2, 5, 20], random),
    };
    Host::Busy { salt: random.word(), one_in, fickle: random.below(4) == 0 }
}
