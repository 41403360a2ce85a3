//! Right sides and hosts, for the reference and for ours alike: each answer is a function of the request and, of those
//! that are fickle, of how many requests went before it. The right sides use + − × ÷; a wild one puts in NaNs of any
//! pattern, infinities, huge and denormal numbers by a hash of the request.

use crate::cases::Random;

/// Every NaN has the same pattern: two sides may well hold NaNs of unlike signs.
pub fn pattern(x: f64) -> u64 {
    if x.is_nan() { 0x7ff8_0000_0000_0000 } else { x.to_bits() }
}

/// Numbers drawn from a hash of a request.
fn hashed(salt: u64, time: f64, y: &[f64]) -> Random {
    let mut state = salt;
    for x in std::iter::once(&time).chain(y) {
        state = Random::new(state ^ pattern(*x), "").word();
    }
    Random::new(state, "")
}

#[derive(Clone, Debug)]
pub enum Shape {
    Constant(f64),
    /// y' = −rate·(y − drift·t) + coupling·next: stiff where the rates are large.
    Decay {
        rates: Vec<f64>,
        drift: f64,
        coupling: f64,
    },
    /// y' = a·y·(1 − next).
    Growth(f64),
    /// Pairs of van der Pol's equation.
    Oscillator(f64),
    /// A chain of reactions with rates far apart, as Robertson's.
    Kinetics(f64),
    /// Robertson's own, of three states.
    Robertson,
    /// y' = −rate·(y − 1).
    Relaxed(f64),
    /// y' = c / (y² + e).
    Rational {
        c: f64,
        e: f64,
    },
    /// Next to `at` like c / (t − at)²: the smaller a step from there, the larger its error.
    Spike {
        at: f64,
        c: f64,
        e: f64,
    },
    /// All rows equal: with a large k the corrector's matrix is singular.
    EqualRows(f64),
    /// Close to given slopes: moved by a hash of the request, and pulled by the distance from a centre.
    Near {
        slopes: Vec<f64>,
        noise: f64,
        centre: Vec<f64>,
        pull: f64,
    },
    /// Without any continuity: a hash of the time, or of the whole request, times a power of ten up to this one.
    Jumps {
        by_time: bool,
        decades: u64,
    },
}

/// The Jacobian that the host supplies.
#[derive(Clone, Copy, Debug)]
pub enum Matrix {
    Differences,
    All(f64),
    Jumps,
}

#[derive(Clone, Debug)]
pub struct Side {
    pub shape: Shape,
    pub matrix: Matrix,
    pub salt: u64,
    /// One entry in so many is replaced; 0: none.
    pub wild: u64,
    /// Each entry is moved by up to this part of its size plus 1, by a hash of the request's number; 0.0: none is, and
    /// equal requests are answered alike.
    pub fickle: f64,
    /// From this request on each entry is a NaN, so that every pass converges; the next report is then answered by
    /// interrupt. It ends a run whose settings let it go on for long.
    pub most: u64,
}

const WILD: [f64; 12] = [
    f64::NAN,
    f64::INFINITY,
    f64::NEG_INFINITY,
    f64::MAX,
    -1.0e300,
    1.0e160,
    5.0e-324,
    -1.0e-310,
    f64::MIN_POSITIVE,
    0.0,
    -0.0,
    1.0e20,
];

impl Side {
    /// The same answer to equal requests, with nothing replaced, however many there are.
    pub fn steady(shape: Shape) -> Self {
        Side { shape, matrix: Matrix::Differences, salt: 0, wild: 0, fickle: 0.0, most: u64::MAX }
    }

    /// After so many requests that were asked before.
    pub fn derivative(&self, asked: u64, time: f64, y: &[f64], out: &mut [f64]) {
        self.shaped(time, y, out);
        self.disturb([0, asked], time, y, out);
    }

    /// Column by column.
    pub fn jacobian(&self, asked: u64, time: f64, y: &[f64], out: &mut [f64]) {
        let n = y.len();
        match self.matrix {
            Matrix::All(x) => out.fill(x),
            Matrix::Jumps => {
                let mut random = hashed(self.salt, time, y);
                out.fill_with(|| jump(&mut random, 6));
            }
            Matrix::Differences => {
                let (mut here, mut moved) = (vec![0.0; n], y.to_vec());
                self.shaped(time, y, &mut here);
                for (column, out) in out.chunks_mut(n).enumerate() {
                    let step = 1.0e-7 * (y[column].abs() + 1.0);
                    moved[column] = y[column] + step;
                    self.shaped(time, &moved, out);
                    out.iter_mut().zip(&here).for_each(|(out, here)| *out = (*out - here) / step);
                    moved[column] = y[column];
                }
            }
        }
        self.disturb([1, asked], time, y, out);
    }

    fn disturb(&self, [what, asked]: [u64; 2], time: f64, y: &[f64], out: &mut [f64]) {
        if asked >= self.most {
            return out.fill(f64::NAN);
        }
        let mut salt = self.salt ^ what;
        if self.fickle != 0.0 {
            salt = numbered(salt, asked);
            let mut random = Random::new(salt, "");
            out.iter_mut().for_each(|out| *out += self.fickle * (out.abs() + 1.0) * unit(&mut random));
        }
        if self.wild == 0 {
            return;
        }
        let mut random = hashed(salt, time, y);
        for out in out {
            if random.below(self.wild) == 0 {
                *out = random.one_of(&WILD);
            }
        }
    }

    fn shaped(&self, time: f64, y: &[f64], out: &mut [f64]) {
        let n = y.len();
        let next = |i: usize| y[(i + 1) % n];
        let each = |out: &mut [f64], f: &dyn Fn(usize) -> f64| (0..n).for_each(|i| out[i] = f(i));
        match &self.shape {
            Shape::Constant(c) => out.fill(*c),
            Shape::Decay { rates, drift, coupling } => {
                each(out, &|i| -rates[i % rates.len()] * (y[i] - drift * time) + coupling * next(i));
            }
            Shape::Growth(a) => each(out, &|i| a * y[i] * (1.0 - next(i))),
            Shape::Oscillator(mu) => each(out, &|i| {
                let pair = i ^ 1;
                match (i % 2, pair < n) {
                    (0, true) => y[pair],
                    (0, false) => -y[i],
                    _ => mu * ((1.0 - y[pair] * y[pair]) * y[i]) - y[pair],
                }
            }),
            Shape::Kinetics(k) => each(out, &|i| {
                let before = y[(i + n - 1) % n];
                0.04 * before - k * y[i] * next(i) - 0.04 * y[i] + k * before * y[i]
            }),
            Shape::Robertson => {
                out[0] = -0.04 * y[0] + 1.0e4 * y[1] * y[2];
                out[2] = 3.0e7 * y[1] * y[1];
                out[1] = -out[0] - out[2];
            }
            Shape::Relaxed(rate) => each(out, &|i| -rate * (y[i] - 1.0)),
            Shape::Rational { c, e } => each(out, &|i| c / (y[i] * y[i] + e)),
            Shape::Spike { at, c, e } => {
                let d = time - at;
                each(out, &|i| c * d / (d * d * d + e) + 0.001 * y[i]);
            }
            Shape::EqualRows(k) => out.fill(k * y.iter().sum::<f64>()),
            Shape::Near { slopes, noise, centre, pull } => {
                let mut random = hashed(self.salt, time, y);
                (0..n).for_each(|i| out[i] = slopes[i] + noise * jump(&mut random, 1) + pull * (y[i] - centre[i]));
            }
            Shape::Jumps { by_time, decades } => {
                let mut random = hashed(self.salt, time, if *by_time { &[] } else { y });
                out.fill_with(|| jump(&mut random, *decades));
            }
        }
    }
}

/// A number of any size up to a power of ten, with both signs.
fn jump(random: &mut Random, decades: u64) -> f64 {
    let size = 10f64.powi(random.below(decades + 1) as i32 - 1);
    size * unit(random)
}

/// From −1 to 1.
fn unit(random: &mut Random) -> f64 {
    random.below(2000) as f64 / 1000.0 - 1.0
}

/// A salt for the request of this number alone.
fn numbered(salt: u64, asked: u64) -> u64 {
    Random::new(salt ^ asked, "").word()
}

/// What the host says to a report. The reference's `XOut` is ours to be answered like continue.
#[derive(Clone, Copy, Debug, PartialEq, Eq)]
pub enum Answer {
    Continue,
    XOut,
    Interrupt,
    Modified,
}

#[derive(Clone, Debug)]
pub struct Said {
    pub answer: Answer,
    pub y: Vec<f64>,
    pub time: f64,
}

/// A host: what it says is a function of the report.
#[derive(Clone, Copy, Debug)]
pub enum Host {
    /// Continues.
    Plain,
    /// One report in so many is answered otherwise; a fickle one says it by the number of requests too.
    Busy { salt: u64, one_in: u64, fickle: bool },
}

impl Host {
    /// After so many requests that were asked before.
    pub fn says(&self, asked: u64, previous: f64, time: f64, y: &[f64]) -> Said {
        let mut said = Said { answer: Answer::Continue, y: y.to_vec(), time };
        let Host::Busy { salt, one_in, fickle } = *self else { return said };
        let salt = if fickle { numbered(salt, asked) } else { salt };
        let mut random = hashed(salt ^ pattern(previous), time, y);
        if random.below(one_in) != 0 {
            return said;
        }
        said.answer = match random.below(12) {
            0 => Answer::Interrupt,
            1..=5 => Answer::Modified,
            6 => Answer::XOut,
            _ => Answer::Continue,
        };
        if random.below(4) != 0 {
            for y in &mut said.y {
                *y = changed(&mut random, *y);
            }
        }
        if random.below(2) == 0 {
            said.time = match random.below(8) {
                0 => changed(&mut random, time),
                1 => previous,
                2..=3 => time + 0.5 * (time - previous),
                _ => previous + 0.5 * (time - previous),
            };
        }
        said
    }
}

/// Mostly a little moved; sometimes 0 or a wild number.
fn changed(random: &mut Random, x: f64) -> f64 {
    match random.below(16) {
        0 => random.one_of(&WILD),
        1 => 0.0,
        2..=5 => x,
        6..=9 => x * 0.5,
        _ => x + 0.01 * unit(random),
    }
}
