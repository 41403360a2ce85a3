//! Sessions of runs under way, some at every phase, each with the reply that it waits for.

use crate::calls::{self, Lent, number};
use crate::cases::Random;
use crate::ours::{self, Given, is_end};
use crate::problem::Problem;
use crate::session::{Field, PHASES, count, phase};

#[derive(Clone)]
pub struct Live {
    pub n: usize,
    pub lent: Lent,
    pub given: Given,
    pub problem: Problem,
}

/// A number that a call which was not refused may return.
pub fn is_answer(number: usize) -> bool {
    (number::DERIVATIVE..=number::REPORT).contains(&number) || is_end(number)
}

/// How many runs are followed at most.
const FOLLOWED: usize = 100_000;

/// So many sessions of each phase.
pub fn pool(random: &mut Random, each: usize) -> Vec<Live> {
    let mut pool: Vec<Live> = Vec::new();
    let mut found = [0; PHASES.len()];
    for _ in 0..FOLLOWED {
        let problem = Problem::draw(random);
        if problem.n() <= 8 {
            follow(&problem, each, &mut found, &mut pool);
        }
        if found.iter().all(|&found| found == each) {
            return pool;
        }
    }
    panic!("{FOLLOWED} runs came to too few sessions of some phase: {found:?}")
}

/// Keeps the first session of each phase in the run, as long as that phase lacks some.
fn follow(problem: &Problem, each: usize, found: &mut [usize], pool: &mut Vec<Live>) {
    let n = problem.n();
    let mut lent = Lent::new(n);
    let Problem { x0, xend, y0, rtol, atol, options, .. } = problem;
    let mut reply = calls::start(*x0, *xend, y0, rtol, atol, *options, &mut lent);
    if reply.number != number::DERIVATIVE {
        return;
    }
    let mut kept = [false; PHASES.len()];
    let mut asked = 0;
    loop {
        let phase = count(&lent.session, Field::phase);
        let given = match phase {
            phase::FINISHED => Given { kind: calls::kind::DERIVATIVE, numbers: vec![0.5; n], time: 0.0 },
            _ => ours::given(&reply, &lent, problem, &mut asked),
        };
        let at = phase as usize;
        if found[at] < each && !kept[at] {
            kept[at] = true;
            found[at] += 1;
            pool.push(Live { n, lent: lent.clone(), given: given.clone(), problem: problem.clone() });
        }
        if phase == phase::FINISHED {
            return;
        }
        reply = calls::reply(given.kind, &given.numbers, given.time, &mut lent);
        if !is_answer(reply.number) {
            return;
        }
    }
}
