//! Factoring and solving: our functions against the reference's of the same name, with what a refusal leaves.

use crate::cases::{Kind, Random};
use crate::ours;
use crate::report::{Report, Tally, all_bits, all_same};
use reference::reach;

pub fn compare(report: &mut Report, calls: u64, seed: u64) {
    factor(report, calls, seed);
    solve(report, calls, seed);
}

/// A matrix of n columns: any, one with a column or a row of zeros, or one that is a unit matrix but for a few entries.
pub fn matrix(random: &mut Random, n: usize) -> Vec<f64> {
    let kind = random.kind();
    let mut a = random.list(kind, n * n);
    let line = random.within(0, n - 1);
    match random.below(6) {
        0 => a[line * n..(line + 1) * n].fill(0.0),
        1 => (0..n).for_each(|j| a[line + j * n] = 0.0),
        2 => {
            for (at, x) in a.iter_mut().enumerate() {
                if random.below(4) != 0 {
                    *x = if at % n == at / n { 1.0 } else { 0.0 };
                }
            }
        }
        _ => {}
    }
    a
}

fn factor(report: &mut Report, calls: u64, seed: u64) {
    let mut tally = Tally::new("dense_lu_factor");
    let mut random = Random::new(seed, "dense_lu_factor");
    let mut singular = 0;
    for _ in 0..calls {
        let n = random.states();
        let a = matrix(&mut random, n);
        let ipiv: Vec<usize> = (0..n + random.within(0, 1)).map(|_| random.word() as usize).collect();
        let (mut theirs, mut their_ipiv) = (a.clone(), ipiv.clone());
        let their_number = usize::from(reach::dense_lu_factor(&mut theirs, n, &mut their_ipiv).is_err());
        singular += their_number;
        let (mut ours, mut our_ipiv) = (a.clone(), ipiv.clone());
        let number = ours::dense_lu_factor(&mut ours, n, &mut our_ipiv);
        let agree = number == their_number && our_ipiv == their_ipiv && all_same(&ours, &theirs);
        tally.case(agree, || {
            let ours = format!("{number} {} {our_ipiv:?}", all_bits(&ours));
            format!("{}: ours {ours}, theirs {their_number} {} {their_ipiv:?}", all_bits(&a), all_bits(&theirs))
        });
    }
    for (n, a, ipiv) in [(65, 65 * 65, 65), (2, 3, 2), (2, 4, 1), (usize::MAX, 4, 4)] {
        let (mut matrix, mut pivots) = (vec![3.0; a], vec![7; ipiv]);
        let number = ours::dense_lu_factor(&mut matrix, n, &mut pivots);
        let unchanged = number == 2 && matrix == vec![3.0; a] && pivots == vec![7; ipiv];
        tally.case(unchanged, || format!("{n} states, {a} and {ipiv} numbers are not left alone"));
    }
    report.end(tally, format!("{singular} of them singular"));
}

/// Factors with their own pivots, or any matrix with any pivots. Ours has the right side and the matrix in one list.
fn solve(report: &mut Report, calls: u64, seed: u64) {
    let mut tally = Tally::new("dense_lu_solve");
    let mut random = Random::new(seed, "dense_lu_solve");
    let mut singular = 0;
    for _ in 0..calls {
        let n = random.states();
        let mut a = matrix(&mut random, n);
        let mut ipiv: Vec<usize> = (0..n).map(|_| random.within(0, n - 1)).collect();
        if random.below(4) != 0 {
            // what a refusal leaves is no less a matrix
            let _ = reach::dense_lu_factor(&mut a, n, &mut ipiv);
        }
        let kind = if random.below(2) == 0 { Kind::Plain } else { random.kind() };
        let right = random.list(kind, n);
        let (before, between, behind) = (random.within(0, 2), random.within(0, 2), random.within(0, 2));
        let (b, at) = (before, before + n + between);
        let mut work = vec![7.0; at + n * n + behind];
        work[b..b + n].copy_from_slice(&right);
        work[at..at + n * n].copy_from_slice(&a);
        let mut solution = right.clone();
        let their_number = usize::from(reach::dense_lu_solve(&a, n, &ipiv, &mut solution).is_err());
        singular += their_number;
        let mut theirs = work.clone();
        theirs[b..b + n].copy_from_slice(&solution);
        let number = ours::dense_lu_solve(&mut work, n, at, &ipiv, b);
        tally.case(number == their_number && all_same(&work, &theirs), || {
            let given = format!("{} {ipiv:?} {}", all_bits(&a), all_bits(&right));
            let ours = all_bits(&work[b..b + n]);
            format!("{given}: ours {number} {ours}, theirs {their_number} {}", all_bits(&solution))
        });
    }
    for (n, a, ipiv, b) in [
        (2, 2, vec![0, 2], 0),
        (2, 2, vec![0], 0),
        (2, 1, vec![0, 1], 0),
        (2, 2, vec![0, 1], 1),
        (2, 3, vec![0, 1], 1),
        (65, 65, vec![0; 65], 0),
        (2, usize::MAX, vec![0, 1], 0),
        (usize::MAX, 2, vec![0, 1], 0),
    ] {
        let mut work = vec![3.0; 6];
        let number = ours::dense_lu_solve(&mut work, n, a, &ipiv, b);
        tally.case(number == 2 && work == vec![3.0; 6], || format!("{n} {a} {ipiv:?} {b} is not left alone"));
    }
    report.end(tally, format!("{singular} of them with a zero on the diagonal"));
}
