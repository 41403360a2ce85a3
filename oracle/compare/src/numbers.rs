//! The numbers: our root against its rule, our square root and the small functions against the machine's.

use crate::cases::{self, Random};
use crate::report::{Report, Tally, bits, same};
use crate::{ours, rules};

/// For each order so many random numbers, and every special one.
pub fn roots(report: &mut Report, random_each: u64, seed: u64) {
    for k in 2..=13 {
        let name = format!("root {k}");
        let mut random = Random::new(seed, &name);
        let mut root = Root::new(name, k);
        for x in special_roots(k, &mut random) {
            root.compare(x);
        }
        for _ in 0..random_each {
            root.compare(random.number());
        }
        root.end(report);
    }
    let mut tally = Tally::new("root of another order is a NaN");
    for k in [0, 1, 14, 15, 63, 64, usize::MAX] {
        for x in cases::ends() {
            tally.number(ours::raimsklo_root(x, k), f64::NAN, || format!("{} {k}", bits(x)));
        }
    }
    report.end(tally, "");
}

fn special_roots(k: usize, random: &mut Random) -> Vec<f64> {
    let mut all = cases::ends();
    all.extend(cases::powers_of_two());
    all.extend(cases::exact_powers(k as u32, 2000));
    for _ in 0..2000 {
        all.push(random.subnormal());
        // what a k-fold product gives, and its neighbours
        let exponent = 1023 - 1000 / k as u64 + random.below(2000 / k as u64);
        let y = f64::from_bits(exponent << 52 | random.word() >> 12);
        all.extend(cases::neighbours(rules::product(y, k), 1));
    }
    all
}

/// One order under comparison. The distance to `powf` is told and decides nothing: at most so many units in the last
/// place where x is near 1, and at any normal x, where the exponent 1.0 / k, itself rounded, weighs more.
struct Root {
    tally: Tally,
    k: usize,
    near: u64,
    anywhere: u64,
}

impl Root {
    fn new(name: String, k: usize) -> Self {
        Root { tally: Tally::new(name), k, near: 0, anywhere: 0 }
    }

    fn compare(&mut self, x: f64) {
        let k = self.k;
        let ours = ours::raimsklo_root(x, k);
        let rule = rules::root(x, k);
        let positive = x > 0.0 && x < f64::INFINITY;
        let agree = same(ours, rule) && (!positive || rules::is_largest(x, k, ours));
        self.tally.case(agree, || format!("{} {k}: ours {}, theirs {}", bits(x), bits(ours), bits(rule)));
        if positive && x.is_normal() {
            let away = ours.to_bits().abs_diff(x.powf(1.0 / k as f64).to_bits());
            self.anywhere = self.anywhere.max(away);
            if (0.001..1000.0).contains(&x) {
                self.near = self.near.max(away);
            }
        }
    }

    fn end(self, report: &mut Report) {
        let Root { tally, k: _, near, anywhere } = self;
        report.end(
            tally,
            format!("powf is within {near} units in the last place from 0.001 to 1000, {anywhere} elsewhere"),
        );
    }
}

pub fn square_roots(report: &mut Report, random: u64, seed: u64) {
    let mut tally = Tally::new("sqrt, special numbers");
    let mut draw = Random::new(seed, "sqrt");
    let mut special = cases::ends();
    special.extend(cases::exponent_ends());
    special.extend(cases::powers_of_two());
    special.extend(cases::exact_powers(2, 20_000));
    special.extend(cases::hard_square_roots(20_000));
    for _ in 0..100_000 {
        special.push(draw.subnormal());
        let root = draw.word() >> 38;
        special.extend(cases::neighbours((root * root) as f64, 1));
    }
    for x in special {
        square_root(&mut tally, x);
    }
    report.end(tally, "");
    let mut tally = Tally::new("sqrt");
    for _ in 0..random {
        square_root(&mut tally, draw.number());
    }
    report.end(tally, "");
}

fn square_root(tally: &mut Tally, x: f64) {
    tally.number(ours::probe_sqrt(x), x.sqrt(), || bits(x));
}

/// The sign, order and pattern of a number. Of two zeros with unlike signs Rust's maximum and minimum may give either.
pub fn small(report: &mut Report, random: u64, seed: u64) {
    let mut draw = Random::new(seed, "small");
    let ends = cases::ends();
    let mut one = Tally::new("abs, signum, to_bits, from_bits");
    let mut two = Tally::new("max, min, copysign, refused step");
    let mut three = Tally::new("clamp");
    let special = ends.iter().flat_map(|&a| ends.iter().map(move |&b| (a, b))).collect::<Vec<_>>();
    let mut compare = |a: f64, b: f64, draw: &mut Random| {
        let input = || format!("{} {}", bits(a), bits(b));
        one.number(ours::probe_abs(a), a.abs(), || format!("abs {}", bits(a)));
        one.number(ours::probe_signum(a), a.signum(), || format!("signum {}", bits(a)));
        let pattern = if a.is_nan() { 0x7ff8_0000_0000_0000 } else { a.to_bits() };
        one.case(ours::probe_to_bits(a) == pattern, || format!("to_bits {}", bits(a)));
        one.number(ours::probe_from_bits(a.to_bits()), a, || format!("from_bits {}", bits(a)));
        let either = |x: f64, y: f64| same(x, y) || (a == 0.0 && b == 0.0 && x == 0.0 && y == 0.0);
        two.case(either(ours::probe_max(a, b), a.max(b)), || format!("max {}", input()));
        two.case(either(ours::probe_min(a, b), a.min(b)), || format!("min {}", input()));
        if !b.is_nan() {
            two.number(ours::probe_copysign(a, b), a.copysign(b), || format!("copysign {}", input()));
        }
        for direction in [1.0, -1.0, f64::NAN, b] {
            let refused = a == 0.0 || a.signum() != direction;
            let right = ours::probe_is_refused(a, direction) == refused;
            two.case(right, || format!("refused step {} {}", bits(a), bits(direction)));
        }
        let other = cases::beside(draw, &ends, b);
        let (low, high) = if b <= other { (b, other) } else { (other, b) };
        if low <= high {
            three
                .number(ours::probe_clamp(a, low, high), a.clamp(low, high), || format!("{} {}", input(), bits(other)));
        }
    };
    for (a, b) in special {
        compare(a, b, &mut draw);
    }
    for _ in 0..random {
        let a = draw.number();
        let b = cases::beside(&mut draw, &ends, a);
        compare(a, b, &mut draw);
        compare(b, a, &mut draw);
    }
    report.end(one, "");
    report.end(two, "");
    report.end(three, "");
}
