//! Times of our machine beside the published Rust; docs/SPEED.md has the answers.
//!
//!     bench times [ROUNDS]                        nanoseconds per request, side by side
//!     bench calls                                 the cost of a start, of a refused reply, of a root
//!     bench once SIDE FAMILY N REPEATS            runs alone, for callgrind
//!     bench counts                                requests and steps of three known problems

#[path = "../../oracle/runs/src/calls.rs"]
#[allow(dead_code)]
mod calls;
mod problems;
mod sides;

use calls::Lent;
use problems::{FAMILIES, KNOWN, Problem, SIZES, known, timed};
use sides::{Ended, SIDES, run, stiff_share};
use std::hint::black_box;
use std::time::Instant;

fn main() {
    let args: Vec<String> = std::env::args().skip(1).collect();
    let args: Vec<&str> = args.iter().map(String::as_str).collect();
    match args[..] {
        ["times"] => times(61),
        ["times", rounds] => times(rounds.parse().unwrap()),
        ["calls"] => calls_alone(),
        ["once", side, family, n, repeats] => once(side, family, n.parse().unwrap(), repeats.parse().unwrap()),
        ["counts"] => counts(),
        _ => panic!("bench times [ROUNDS] | calls | once SIDE FAMILY N REPEATS | counts"),
    }
}

fn median(mut of: Vec<f64>) -> f64 {
    of.sort_by(f64::total_cmp);
    of[of.len() / 2]
}

fn least(of: &[f64]) -> f64 {
    of.iter().copied().fold(f64::INFINITY, f64::min)
}

/// Nanoseconds that one of these calls takes.
fn each(times: usize, mut call: impl FnMut()) -> f64 {
    let begin = Instant::now();
    for _ in 0..times {
        call();
    }
    begin.elapsed().as_nanos() as f64 / times as f64
}

/// Our ends are those of the published Rust with our root, bit for bit.
fn ends(problem: &Problem, lent: &mut Lent) -> Vec<Ended> {
    let ends: Vec<_> = SIDES.iter().map(|side| run(side, problem, lent)).collect();
    assert!(ends[0] == ends[1] && ends[1] == ends[2], "ours and the published Rust differ: {ends:?}");
    ends
}

fn times(rounds: usize) {
    println!("nanoseconds per request (derivatives and reports), least of {rounds} rounds, sides in turn;");
    println!("ratios: of the least times, and in brackets the median of the rounds' own ratios");
    println!(
        "family   n  requests   steps   nje  in BDF     kept    fresh     root     powf     kept/root        kept/powf"
    );
    for family in FAMILIES {
        for n in SIZES {
            let problem = timed(family, n);
            let mut lent = Lent::new(n);
            let ends = ends(&problem, &mut lent);
            let one = each(3, || drop(black_box(run("kept", &problem, &mut lent))));
            let repeats = (4e6 / one).max(1.0) as usize;
            let mut taken = [const { Vec::new() }; 4];
            for round in 0..rounds {
                for k in 0..4 {
                    let at = (round + k) % 4;
                    let per = each(repeats, || drop(black_box(run(SIDES[at], &problem, &mut lent))));
                    taken[at].push(per / ends[at].requests() as f64);
                }
            }
            let ratio = |at: usize| {
                let own = median(taken[0].iter().zip(&taken[at]).map(|(a, b)| a / b).collect());
                format!("{:.2} ({own:.2})", least(&taken[0]) / least(&taken[at]))
            };
            let (by_root, by_powf) = (ratio(2), ratio(3));
            let leasts: Vec<_> = taken.iter().map(|of| format!("{:8.1}", least(of))).collect();
            let (&Ended { accepted, nje, .. }, stiff) = (&ends[0], 100.0 * stiff_share(&problem));
            let (requests, leasts) = (ends[0].requests(), leasts.join(" "));
            println!(
                "{family:6} {n:3} {requests:9} {accepted:7} {nje:5} {stiff:6.0}% {leasts} {by_root:>13} {by_powf:>16}"
            );
        }
    }
}

fn calls_alone() {
    println!("nanoseconds of one call, least of 61 rounds");
    let least = |times: usize, call: &mut dyn FnMut()| {
        let taken: Vec<_> = (0..61).map(|_| each(times, &mut *call)).collect();
        least(&taken)
    };
    println!("  n  clear   start  unknown kind  unasked kind");
    for n in SIZES {
        let Problem { y0, xend, rtol, atol, .. } = timed("adams", n);
        let mut lent = Lent::new(n);
        let clear = least(2_000, &mut || {
            lent.work.fill(0.0);
            lent.pivots.fill(0);
            lent.session.fill(0);
            lent.question.fill(0.0);
            black_box(&mut lent);
        });
        let start = least(2_000, &mut || {
            black_box(calls::start(0.0, xend, &y0, &rtol, &atol, calls::defaults(), &mut lent));
        });
        // 9 is no kind: refused by 14 once the stored values are found in range. 3 is one, but a derivative was asked.
        let unknown = least(2_000, &mut || assert_eq!(calls::reply(9, &y0, 0.0, &mut lent).number, 14));
        let unasked = least(2_000, &mut || assert_eq!(calls::reply(3, &y0, 0.0, &mut lent).number, 14));
        println!("{n:3} {clear:6.1} {start:7.1} {unknown:13.1} {unasked:13.1}");
    }
    println!("  k   root    powf");
    for k in [2usize, 3, 4, 6, 8, 13] {
        use plain::root::PowerByRoot as _;
        let mut x = 0.3;
        let by_root = least(2_000, &mut || {
            x = if x > 1.0 { x - 0.999 } else { x + 0.0137 };
            black_box(root(black_box(x), k));
        });
        let by_powf = least(2_000, &mut || {
            x = if x > 1.0 { x - 0.999 } else { x + 0.0137 };
            black_box(black_box(x).power_by_root(1.0 / k as f64));
        });
        println!("{k:3} {by_root:6.1} {by_powf:7.1}");
    }
}

fn root(x: f64, k: usize) -> f64 {
    unsafe extern "C" {
        safe fn raimsklo_root(x: f64, k: usize) -> f64;
    }
    raimsklo_root(x, k)
}

fn once(side: &str, family: &str, n: usize, repeats: usize) {
    let problem = timed(family, n);
    let mut lent = Lent::new(n);
    for _ in 0..repeats {
        let end = run(side, &problem, &mut lent);
        println!("{}", end.requests());
    }
}

/// A line for each run: solver, problem, tolerance, derivatives, Jacobians, steps, rejected, and where it ends.
fn counts() {
    for name in KNOWN {
        for rtol in [1e-4, 1e-6, 1e-8] {
            let problem = known(name, rtol);
            let end = ends(&problem, &mut Lent::new(problem.y0.len())).swap_remove(0);
            let y: Vec<_> = end.y.iter().map(|x| format!("{x:?}")).collect();
            println!(
                "raimsklo {name} {rtol:e} {} {} {} {} {}",
                end.nfe,
                end.nje,
                end.accepted,
                end.rejected,
                y.join(" ")
            );
        }
    }
}
