//! Each setting at 0, 1, 2, its default and both sides of the most that a start accepts, alone and in pairs: the run of
//! the reference, or the refusal of both. Above 1,000,000 the reference takes what is refused here by 4.

use crate::calls::{self, Options};
use crate::cases::Random;
use crate::coverage::Coverage;
use crate::event::Event;
use crate::model::{self, Start};
use crate::problem::Problem;
use crate::report::Report;
use crate::theirs;
use crate::whole::Runs;

const SETTINGS: [fn(&mut Options) -> &mut usize; 6] = [
    |options| &mut options.max_steps,
    |options| &mut options.mxordn,
    |options| &mut options.mxords,
    |options| &mut options.maxcor,
    |options| &mut options.msbp,
    |options| &mut options.mxncf,
];

/// After so many requests a run is brought to its end, whatever its settings let it do.
const MOST: u64 = 1500;

/// The places of a setting: its default is that of the crate.
fn places(setting: usize) -> [usize; 7] {
    let default = *SETTINGS[setting](&mut calls::defaults());
    [0, 1, 2, default, 999_999, 1_000_000, 1_000_001]
}

pub fn compare(report: &mut Report, coverage: &mut Coverage, size: u64, seed: u64) {
    let mut random = Random::new(seed, "settings");
    let mut runs = Runs::new("settings at their limits, alone and in pairs");
    for _ in 0..size / 400 + 5 {
        let problem = drawn(&mut random);
        for (a, b) in (0..6).flat_map(|a| (a..6).map(move |b| (a, b))) {
            for of_a in places(a) {
                // Alone, where both are the same.
                let others = if a == b { vec![of_a] } else { places(b).to_vec() };
                for of_b in others {
                    let mut problem = problem.clone();
                    *SETTINGS[a](&mut problem.options) = of_a;
                    *SETTINGS[b](&mut problem.options) = of_b;
                    one(&mut runs, &problem, &mut random, coverage);
                }
            }
        }
    }
    runs.end(report);
}

/// A problem whose settings are the defaults.
fn drawn(random: &mut Random) -> Problem {
    loop {
        let mut problem = Problem::draw(random);
        for setting in SETTINGS {
            *setting(&mut problem.options) = *setting(&mut calls::defaults());
        }
        problem.side.most = MOST;
        if problem.n() <= 8 && refusal(&problem).is_none() {
            return problem;
        }
    }
}

fn refusal(problem: &Problem) -> Option<model::Refusal> {
    let Problem { x0, xend, y0, rtol, atol, options, .. } = problem.clone();
    model::of_start(&Start { x0, xend, y0, rtol, atol, options }, &calls::Lent::new(problem.n()))
}

/// Up to 1,000,000 the reference decides, and must refuse what the table says; above, the table does.
fn one(runs: &mut Runs, problem: &Problem, random: &mut Random, coverage: &mut Coverage) {
    match refusal(problem).map(|refusal| refusal.number) {
        Some(4) => {
            let refused = vec![Event::Refused { number: 4, index: 0, value: 0.0 }];
            runs.against(&refused, problem, random, coverage);
        }
        expected => {
            let theirs = theirs::run(problem);
            let refused = match &theirs[..] {
                [Event::Refused { number, .. }] if *number < 11 => Some(*number),
                _ => None,
            };
            if refused == expected {
                runs.against(&theirs, problem, random, coverage);
            } else {
                runs.broken(|| format!("the reference answers {refused:?}, expected {expected:?}: {problem:?}"));
            }
        }
    }
}
