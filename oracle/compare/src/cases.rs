//! The case generator: numbers drawn by a seed, and the special ones that a comparison always takes.

/// splitmix64: the same seed gives the same numbers everywhere.
pub struct Random(u64);

impl Random {
    /// A stream of its own for each comparison, told apart by its name.
    pub fn new(seed: u64, name: &str) -> Self {
        let mut state = Random(seed);
        for byte in name.bytes() {
            state.0 = state.word() ^ u64::from(byte);
        }
        state
    }

    pub fn word(&mut self) -> u64 {
        self.0 = self.0.wrapping_add(0x9e37_79b9_7f4a_7c15);
        let mut z = self.0;
        z = (z ^ (z >> 30)).wrapping_mul(0xbf58_476d_1ce4_e5b9);
        z = (z ^ (z >> 27)).wrapping_mul(0x94d0_49bb_1331_11eb);
        z ^ (z >> 31)
    }

    pub fn below(&mut self, bound: u64) -> u64 {
        self.word() % bound
    }

    /// Any pattern, the sign mostly clear: half of all exponents, half the exponents of everyday numbers.
    pub fn number(&mut self) -> f64 {
        let word = self.word();
        let sign = if self.below(16) == 0 { 1 << 63 } else { 0 };
        let exponent = if self.below(2) == 0 { (word >> 52) & 0x7ff } else { 1023 - 50 + self.below(100) };
        f64::from_bits(sign | exponent << 52 | word & 0x000f_ffff_ffff_ffff)
    }

    /// A subnormal or a zero, with any count of leading zeros.
    pub fn subnormal(&mut self) -> f64 {
        let places = self.below(53);
        f64::from_bits(self.word() & ((1 << places) - 1))
    }
}

/// How the numbers of one case are drawn.
#[derive(Clone, Copy)]
pub enum Kind {
    /// Of everyday size, with both signs.
    Plain,
    /// Whole and small: zeros of both signs, and many that are equal.
    Whole,
    /// Plain ones, and every sixth one of the ends of the ranges or a subnormal.
    Mixed,
    /// Any pattern.
    Any,
}

impl Random {
    pub fn kind(&mut self) -> Kind {
        [Kind::Plain, Kind::Plain, Kind::Whole, Kind::Mixed, Kind::Mixed, Kind::Any][self.below(6) as usize]
    }

    pub fn draw(&mut self, kind: Kind) -> f64 {
        let word = self.word();
        match kind {
            Kind::Plain => f64::from_bits(word & 1 << 63 | (1023 - 8 + self.below(16)) << 52 | word >> 12),
            Kind::Whole => [0.0, -0.0, 1.0, -1.0, 2.0, -2.0, 3.0, 0.5][self.below(8) as usize],
            Kind::Mixed => match self.below(12) {
                0 => ENDS[self.below(ENDS.len() as u64) as usize],
                1 => self.subnormal() * if word & 1 == 0 { 1.0 } else { -1.0 },
                _ => self.draw(Kind::Plain),
            },
            Kind::Any => f64::from_bits(word),
        }
    }

    pub fn list(&mut self, kind: Kind, length: usize) -> Vec<f64> {
        (0..length).map(|_| self.draw(kind)).collect()
    }

    /// How many states: 1 to 64, mostly few.
    pub fn states(&mut self) -> usize {
        let most = [4, 4, 4, 4, 4, 12, 12, 64][self.below(8) as usize];
        1 + self.below(most) as usize
    }

    /// From low to high, both included.
    pub fn within(&mut self, low: usize, high: usize) -> usize {
        low + self.below((high - low + 1) as u64) as usize
    }

    /// One of the list, where a NaN stands for any.
    pub fn one_of(&mut self, list: &[f64]) -> f64 {
        let x = list[self.below(list.len() as u64) as usize];
        if x.is_nan() { self.nan() } else { x }
    }

    /// A NaN of any pattern: quiet or signalling, with either sign.
    pub fn nan(&mut self) -> f64 {
        let (word, fraction) = (self.word(), 0x000f_ffff_ffff_ffff);
        let payload = [word & fraction, word & fraction, 1, fraction, 1 << 51][self.below(5) as usize];
        f64::from_bits(word & 1 << 63 | 0x7ff << 52 | payload.max(1))
    }
}

/// What `Kind::Mixed` has among the plain numbers.
const ENDS: [f64; 12] = [
    0.0,
    -0.0,
    f64::NAN,
    f64::INFINITY,
    f64::NEG_INFINITY,
    f64::MAX,
    f64::MIN,
    f64::MIN_POSITIVE,
    -f64::MIN_POSITIVE,
    1.0e300,
    -1.0e-300,
    1.0,
];

/// NaNs of each kind, infinities, zeros, the ends of the ranges, each with both signs.
pub fn ends() -> Vec<f64> {
    let magnitudes = [
        0,
        1,
        0x000f_ffff_ffff_ffff,
        0x0010_0000_0000_0000,
        0x3ff0_0000_0000_0000,
        0x7fef_ffff_ffff_ffff,
        0x7ff0_0000_0000_0000,
        0x7ff0_0000_0000_0001,
        0x7ff7_ffff_ffff_ffff,
        0x7ff8_0000_0000_0000,
        0x7fff_ffff_ffff_ffff,
    ];
    magnitudes.iter().flat_map(|&m| [f64::from_bits(m), f64::from_bits(m | 1 << 63)]).collect()
}

/// One of the ends, the other number, or a number: what a function of two numbers is given beside the other.
pub fn beside(random: &mut Random, ends: &[f64], other: f64) -> f64 {
    match random.below(4) {
        0 => ends[random.below(ends.len() as u64) as usize],
        1 => neighbours(other, 1)[random.below(2) as usize],
        2 => -random.number(),
        _ => random.number(),
    }
}

/// Every exponent with the fractions at its ends and in its middle, with both signs.
pub fn exponent_ends() -> Vec<f64> {
    let fractions = [0, 1, 2, 3, 0x0007_ffff_ffff_ffff, 0x0008_0000_0000_0000, 0x0008_0000_0000_0001];
    let high = [0x000f_ffff_ffff_fffd, 0x000f_ffff_ffff_fffe, 0x000f_ffff_ffff_ffff];
    let mut all = Vec::new();
    for head in 0..0x1000u64 {
        for fraction in fractions.iter().chain(&high) {
            all.push(f64::from_bits(head << 52 | fraction));
        }
    }
    all
}

/// Each power of two that is a number, subnormals included, with its neighbours.
pub fn powers_of_two() -> Vec<f64> {
    let subnormal = (0..52).map(|place| f64::from_bits(1 << place));
    let normal = (1..0x7ff).map(|exponent| f64::from_bits(exponent << 52));
    subnormal.chain(normal).flat_map(|x| neighbours(x, 2)).collect()
}

/// x and the patterns next to it, so many on each side as there are.
pub fn neighbours(x: f64, reach: u64) -> Vec<f64> {
    let pattern = x.to_bits();
    (pattern.saturating_sub(reach)..=pattern.saturating_add(reach)).map(f64::from_bits).collect()
}

/// Whole numbers whose k-th power is a float exactly: the power and its neighbours.
pub fn exact_powers(k: u32, at_most: usize) -> Vec<f64> {
    (1u64..)
        .map_while(|i| i.checked_pow(k).filter(|&power| power <= 1 << 53))
        .take(at_most)
        .flat_map(|power| neighbours(power as f64, 2))
        .collect()
}

/// Numbers whose square root lies as close to the middle of two floats as it can.
///
/// With an odd M of 54 digits, M / 2 is such a middle. Where M² = X · 2^s + r with X of 53 digits and a small r,
/// the root of X · 2^s is next to M. M is found as a square root of r, lifted from digit to digit.
pub fn hard_square_roots(span: i64) -> Vec<f64> {
    let mut all = Vec::new();
    for c in -span..=span {
        let r = i128::from(8 * c + 1);
        for s in [54u32, 55] {
            let modulus = 1i128 << s;
            let mut m = 1i128;
            for place in 3..s {
                if (m * m - r).rem_euclid(1 << (place + 1)) != 0 {
                    m += 1 << (place - 1);
                }
            }
            for half in [0, modulus / 2] {
                for sign in [1, -1] {
                    let root = (sign * m + half).rem_euclid(modulus);
                    let rest = root * root - r;
                    assert!(rest % modulus == 0, "the lifted root is none");
                    let x = rest >> s;
                    if (1 << 52..1 << 53).contains(&x) {
                        for scale in [s as i32, s as i32 - 600, s as i32 + 600] {
                            all.push(x as f64 * 2f64.powi(scale));
                        }
                    }
                }
            }
        }
    }
    all
}
