//! Norms, weights and the first step: our functions against the reference's of the same name.

use crate::cases::{Kind, Random};
use crate::ours;
use crate::report::{Report, Tally, all_bits, all_same, bits, same};
use reference::error::{ConfigError, Error};
use reference::methods::Tolerance;
use reference::reach;

pub fn compare(report: &mut Report, calls: u64, seed: u64) {
    vmnorm(report, calls, seed);
    fnorm_dense(report, calls, seed);
    ewset(report, calls, seed);
    ewset_scalar_like(report, calls, seed);
    invert_weights(report, calls, seed);
    initial_step_size(report, calls, seed);
}

/// A norm's maximum begins at +0, and of two zeros with unlike signs Rust's may give either: those are counted.
#[derive(Default)]
struct Norms {
    unlike_zeros: u64,
}

impl Norms {
    fn same(&mut self, a: f64, b: f64) -> bool {
        let zeros = a == 0.0 && b == 0.0;
        self.unlike_zeros += u64::from(zeros && !same(a, b));
        same(a, b) || zeros
    }

    fn remark(&self) -> String {
        format!("{} of them zeros of unlike signs", self.unlike_zeros)
    }
}

fn vmnorm(report: &mut Report, calls: u64, seed: u64) {
    let mut tally = Tally::new("vmnorm");
    let mut norms = Norms::default();
    let mut random = Random::new(seed, "vmnorm");
    for _ in 0..calls {
        let n = random.states();
        let (kind, longer) = (random.kind(), random.within(0, 1));
        let v = random.list(kind, n);
        let kind = random.kind();
        let w = random.list(kind, n + longer);
        let (ours, theirs) = (ours::vmnorm(&v, &w), reach::vmnorm(&v, &w));
        tally.case(norms.same(ours, theirs), || {
            format!("{} {}: ours {}, theirs {}", all_bits(&v), all_bits(&w), bits(ours), bits(theirs))
        });
    }
    let short = ours::vmnorm(&[1.0, 2.0], &[1.0]);
    tally.case(short.is_nan(), || "a weight too few is no NaN".to_string());
    report.end(tally, norms.remark());
}

fn fnorm_dense(report: &mut Report, calls: u64, seed: u64) {
    let mut tally = Tally::new("fnorm_dense");
    let mut norms = Norms::default();
    let mut random = Random::new(seed, "fnorm_dense");
    for _ in 0..calls {
        let n = random.states();
        let kind = random.kind();
        let a = random.list(kind, n * n);
        let kind = random.kind();
        let w = random.list(kind, n);
        let (ours, theirs) = (ours::fnorm_dense(n, &a, &w), reach::fnorm_dense(n, &a, &w));
        tally.case(norms.same(ours, theirs), || {
            format!("{} {}: ours {}, theirs {}", all_bits(&a), all_bits(&w), bits(ours), bits(theirs))
        });
    }
    for (n, a, w) in [(65, 65 * 65, 65), (2, 3, 2), (2, 4, 1), (usize::MAX, 4, 4)] {
        let answer = ours::fnorm_dense(n, &vec![1.0; a], &vec![1.0; w]);
        tally.case(answer.is_nan(), || format!("{n} states, {a} and {w} numbers are no NaN"));
    }
    report.end(tally, norms.remark());
}

/// A tolerance list of 1 or n numbers, for ours and for the reference.
pub fn tolerances(random: &mut Random, n: usize) -> (Vec<f64>, Tolerance) {
    let (kind, length) = (random.kind(), if random.below(2) == 0 { 1 } else { n });
    let mut list = random.list(kind, length);
    if random.below(4) != 0 {
        list.iter_mut().for_each(|x| *x = x.abs());
    }
    let theirs = if list.len() == 1 && (n > 1 || random.below(2) == 0) { list[0].into() } else { list.clone().into() };
    (list, theirs)
}

/// Ours has the states first in one list and writes the weights behind them.
fn ewset(report: &mut Report, calls: u64, seed: u64) {
    let mut tally = Tally::new("ewset");
    let mut random = Random::new(seed, "ewset");
    for _ in 0..calls {
        let n = random.states();
        let ((rtol, their_rtol), (atol, their_atol)) = (tolerances(&mut random, n), tolerances(&mut random, n));
        let at = n + random.within(0, 2);
        let (kind, behind) = (random.kind(), random.within(0, 2));
        let work = random.list(kind, at + n + behind);
        let mut theirs = work.clone();
        reach::ewset(&their_rtol, &their_atol, &work[..n], &mut theirs[at..at + n]);
        let mut ours = work.clone();
        let number = ours::ewset(&rtol, &atol, &mut ours, n, at);
        tally.case(number == 0 && all_same(&ours, &theirs), || {
            let given = format!("{} {} {}", all_bits(&rtol), all_bits(&atol), all_bits(&work));
            format!("{given} {n} {at}: ours {number} {}, theirs {}", all_bits(&ours), all_bits(&theirs))
        });
    }
    for (n, rtol, atol, at, length) in
        [(0, 1, 1, 1, 4), (2, 3, 1, 2, 4), (2, 1, 0, 2, 4), (2, 1, 2, 1, 4), (2, 1, 1, 3, 4), (9, 1, 1, usize::MAX, 4)]
    {
        let mut work = vec![3.0; length];
        let number = ours::ewset(&vec![1.0; rtol], &vec![1.0; atol], &mut work, n, at);
        let unchanged = number == 2 && work.iter().all(|&x| x == 3.0);
        tally.case(unchanged, || format!("{n} {rtol} {atol} {at} {length} is not left alone"));
    }
    report.end(tally, "");
}

fn ewset_scalar_like(report: &mut Report, calls: u64, seed: u64) {
    let mut tally = Tally::new("ewset_scalar_like");
    let mut random = Random::new(seed, "ewset_scalar_like");
    for _ in 0..calls {
        let n = random.states();
        let at = n + random.within(0, 2);
        let (kind, behind) = (random.kind(), random.within(0, 2));
        let mut work = random.list(kind, at + n + behind);
        if random.below(2) == 0 {
            // near 2^-52, where the larger of the two changes
            let place = random.within(0, n - 1);
            work[place] = f64::from_bits(f64::EPSILON.to_bits() - 1 + random.below(3));
        }
        let mut theirs = work.clone();
        reach::ewset_scalar_like(&work[..n], &mut theirs[at..at + n]);
        let mut ours = work.clone();
        let number = ours::ewset_scalar_like(&mut ours, n, at);
        tally.case(number == 0 && all_same(&ours, &theirs), || {
            format!("{} {n} {at}: ours {number} {}, theirs {}", all_bits(&work), all_bits(&ours), all_bits(&theirs))
        });
    }
    for (n, at) in [(2, 1), (2, 3), (usize::MAX, usize::MAX)] {
        let mut work = [3.0; 4];
        let number = ours::ewset_scalar_like(&mut work, n, at);
        tally.case(number == 2 && work == [3.0; 4], || format!("{n} {at} is not left alone"));
    }
    report.end(tally, "");
}

/// The index that is refused, or the number of weights, and what stands in the list then.
fn invert_weights(report: &mut Report, calls: u64, seed: u64) {
    let mut tally = Tally::new("invert_weights");
    let mut random = Random::new(seed, "invert_weights");
    let mut refused = 0;
    for _ in 0..calls {
        let n = random.states();
        let kind = random.kind();
        let mut ewt = random.list(kind, n);
        if random.below(2) == 0 {
            ewt.iter_mut().for_each(|x| *x = x.abs());
            let place = random.within(0, n - 1);
            ewt[place] = random.draw(Kind::Mixed);
        }
        let mut theirs = ewt.clone();
        let index = match reach::invert_weights(&mut theirs) {
            Ok(()) => n,
            Err(Error::Config(ConfigError::NegativeTolerance { index, .. })) => index,
            Err(other) => panic!("{other:?}"),
        };
        refused += u64::from(index < n);
        let mut ours = ewt.clone();
        let number = ours::invert_weights(&mut ours);
        tally.case(number == index && all_same(&ours, &theirs), || {
            let given = all_bits(&ewt);
            format!("{given}: ours {number} {}, theirs {index} {}", all_bits(&ours), all_bits(&theirs))
        });
    }
    tally.case(ours::invert_weights(&mut []) == 0, || "an empty list is refused".to_string());
    report.end(tally, format!("{refused} of them with a weight that is refused"));
}

/// Where the interval's length is a NaN, the sign is not compared: it is that of a NaN.
fn initial_step_size(report: &mut Report, calls: u64, seed: u64) {
    let mut tally = Tally::new("initial_step_size");
    let mut random = Random::new(seed, "initial_step_size");
    for _ in 0..calls {
        let n = random.states();
        let ((rtol, their_rtol), (atol, their_atol)) = (tolerances(&mut random, n), tolerances(&mut random, n));
        let kind = random.kind();
        let (t, y) = (random.draw(kind), random.list(kind, n));
        let kind = random.kind();
        let (tout, f0) = (random.draw(kind), random.list(kind, n));
        let kind = random.kind();
        let w = random.list(kind, n);
        let ours = ours::initial_step_size(t, tout, &y, &f0, &w, &rtol, &atol);
        let theirs = reach::initial_step_size(t, tout, &y, &f0, &w, &their_rtol, &their_atol);
        let agree = same(ours, theirs) || ((tout - t).is_nan() && same(ours.abs(), theirs.abs()));
        tally.case(agree, || {
            let lists = [&y, &f0, &w, &rtol, &atol].map(|list| all_bits(list)).join(" ");
            format!("{} {} {lists}: ours {}, theirs {}", bits(t), bits(tout), bits(ours), bits(theirs))
        });
    }
    let ones = [1.0; 3];
    for (y, f0, w, rtol, atol) in [(0, 2, 2, 1, 1), (2, 2, 1, 1, 1), (2, 2, 2, 3, 1), (2, 2, 2, 1, 0)] {
        let answer =
            ours::initial_step_size(0.0, 1.0, &ones[..y], &ones[..f0], &ones[..w], &ones[..rtol], &ones[..atol]);
        tally.case(answer.is_nan(), || format!("{y} {f0} {w} {rtol} {atol} numbers are no NaN"));
    }
    report.end(tally, "");
}
