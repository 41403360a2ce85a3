//! The right sides: cheap ones for the times, three known ones for the counts.

/// A right side and where it starts and ends.
#[derive(Clone)]
pub struct Problem {
    pub side: Side,
    pub y0: Vec<f64>,
    pub xend: f64,
    pub rtol: Vec<f64>,
    pub atol: Vec<f64>,
}

#[derive(Clone, Copy, PartialEq)]
pub enum Side {
    /// y' = (next − previous) / 2 in a ring: waves that stay, so Adams alone.
    Ring,
    /// Each state is drawn to 1 + 16·s²·(1 − s)², s being what t has behind its point, at rates from 1e5 on: BDF.
    Drawn,
    /// Van der Pol's equation, stiffness 1000, in scaled time.
    Vdp,
    Robertson,
    /// Twelve links, as examples/python/rig.py has them.
    Tail,
}

impl Side {
    #[inline]
    pub fn derivative(self, t: f64, y: &[f64], f: &mut [f64]) {
        let n = y.len();
        let f = &mut f[..n];
        match self {
            Side::Ring => {
                f[0] = 0.5 * (y[1] - y[n - 1]);
                for i in 1..n - 1 {
                    f[i] = 0.5 * (y[i + 1] - y[i - 1]);
                }
                f[n - 1] = 0.5 * (y[0] - y[n - 2]);
                if n == 2 {
                    (f[0], f[1]) = (y[1], -y[0]);
                }
            }
            Side::Drawn => {
                let s = t - t as i64 as f64;
                let (half, mut rate) = (4.0 * s * (1.0 - s), 1e5);
                let to = 1.0 + half * half;
                for i in 0..n {
                    f[i] = rate * (to - y[i]);
                    rate += 1e4;
                }
            }
            Side::Vdp => {
                f[0] = y[1];
                f[1] = 1000.0 * ((1.0 - y[0] * y[0]) * y[1] - y[0]);
            }
            Side::Robertson => {
                let (a, b, c) = (0.04 * y[0], 1e4 * y[1] * y[2], 3e7 * y[1] * y[1]);
                f[0] = b - a;
                f[1] = a - b - c;
                f[2] = c;
            }
            Side::Tail => {
                let links = n / 2;
                let (angle, speed) = y.split_at(links);
                for i in 0..links {
                    let above = if i == 0 { 0.6 * (2.0 * t).sin() } else { angle[i - 1] };
                    let (stiff, mass) = (900.0 * 0.8f64.powi(i as i32), 0.9f64.powi(i as i32));
                    let mut pull = stiff * (above - angle[i]);
                    if i + 1 < links {
                        pull -= 0.8 * stiff * (angle[i] - angle[i + 1]);
                    }
                    f[i] = speed[i];
                    f[links + i] = (pull - 6.0 * speed[i]) / mass - 9.81 * angle[i].sin();
                }
            }
        }
    }
}

pub const FAMILIES: [&str; 2] = ["adams", "bdf"];
pub const SIZES: [usize; 4] = [2, 8, 24, 64];

/// A problem of the times.
pub fn timed(family: &str, n: usize) -> Problem {
    let (side, xend) = match family {
        "adams" => (Side::Ring, 10.0),
        "bdf" => (Side::Drawn, 10.0),
        _ => panic!("{family} is neither adams nor bdf"),
    };
    let y0 = match side {
        Side::Ring => (0..n).map(|i| if i % 4 == 0 { 1.0 } else { 0.1 * i as f64 / n as f64 }).collect(),
        _ => vec![1.0; n],
    };
    Problem { side, y0, xend, rtol: vec![1e-6], atol: vec![1e-9] }
}

pub const KNOWN: [&str; 3] = ["tail", "vdp", "robertson"];

/// A problem of the counts.
pub fn known(name: &str, rtol: f64) -> Problem {
    let (side, y0, xend, atol) = match name {
        "tail" => (Side::Tail, vec![0.0; 24], 4.0, vec![1e-3 * rtol]),
        "vdp" => (Side::Vdp, vec![2.0, 0.0], 2.0, vec![1e-3 * rtol]),
        "robertson" => (Side::Robertson, vec![1.0, 0.0, 0.0], 4e4, vec![1e-2 * rtol, 1e-6 * rtol, 1e-2 * rtol]),
        _ => panic!("{name} is not known"),
    };
    Problem { side, y0, xend, rtol: vec![rtol], atol }
}
