//! The stored calls of the leaves: each with the lists that are lent to it, and the answer and the lists that the
//! reference leaves. crates/replay/src/leaf.rt makes them again.

use crate::cases::Random;
use crate::record::{Record, float};
use crate::sample::{SEED, pattern};
use crate::{dense, interpolation, rules, vectors};
use reference::error::{ConfigError, Error};
use reference::methods::LSODA;
use reference::reach::{self, Buffers, State};
use std::fmt::Write;

/// Stored calls of each leaf.
const CALLS: usize = 6;
/// How long the program's lists a, b and m are.
const LIMITS: [usize; 3] = [64, 80, 16];
/// Most numbers in a line.
const LINE: usize = 5;

const HEAD: &str = "\
// The stored calls of the leaves, as src/leaf.rt reads them: the heads, and the lists as they were lent and left.
// Made by `bash oracle/run sample`: answers and lists left are those of the reference, the refusals of an interpolation
// those of the rule as oracle/compare/src/rules.rs has it.
";

/// The lists a, b and m.
type Lists = (Vec<f64>, Vec<f64>, Vec<usize>);

struct Call {
    sizes: [usize; 3],
    floats: [f64; 2],
    lent: Lists,
    answer: u64,
    left: Lists,
}

impl Call {
    fn new(sizes: [usize; 3], floats: [f64; 2], lent: Lists) -> Self {
        let left = lent.clone();
        Call { sizes, floats, lent, answer: 0, left }
    }

    /// Whether the program's lists are long enough.
    fn fits(&self) -> bool {
        let (a, b, m) = &self.lent;
        a.len() <= LIMITS[0] && b.len() <= LIMITS[1] && m.len() <= LIMITS[2]
    }
}

/// In the order of their kinds.
const LEAVES: [(&str, fn(&mut Random) -> Call); 17] = [
    ("vmnorm", vmnorm),
    ("fnorm_dense", fnorm_dense),
    ("initial_step_size", initial_step_size),
    ("ewset", ewset),
    ("ewset_scalar_like", ewset_scalar_like),
    ("invert_weights", invert_weights),
    ("dense_lu_factor", dense_lu_factor),
    ("dense_lu_solve", dense_lu_solve),
    ("predict_columns", |random| columns(random, |state, yh| reach::stoda_get_predicted_values(state, yh))),
    ("retract_columns", |random| columns(random, |state, yh| reach::retract_yh(state, yh))),
    ("correct_columns", |random| of_record(random, |state, work, _| reach::correct_columns(state, work))),
    ("stoda_adjust_step_size", |random| {
        of_record(random, |state, work, rh| reach::stoda_adjust_step_size(state, &mut { rh }, &mut work.yh))
    }),
    ("stoda_get_predicted_values", |random| {
        of_record(random, |state, work, _| reach::stoda_get_predicted_values(state, &mut work.yh))
    }),
    ("stoda_first_call_init", |random| {
        without_work(of_record(random, |state, _, _| reach::stoda_first_call_init(state)))
    }),
    ("stoda_reset", |random| without_work(of_record(random, |state, _, _| reach::stoda_reset(state)))),
    ("snapshot_step", snapshot_step),
    ("interpolate", interpolate),
];

/// The kinds whose calls stand together in one table.
const TABLES: [(&str, std::ops::Range<usize>); 2] = [("LISTS", 0..10), ("RECORDS", 10..17)];

pub fn text() -> String {
    let mut text = HEAD.to_string();
    for (table, kinds) in TABLES {
        let (mut heads, mut numbers) = (String::new(), Vec::new());
        let calls = CALLS * kinds.len();
        for kind in kinds {
            let (name, draw) = LEAVES[kind];
            writeln!(heads, "    // {name}").unwrap();
            for call in drawn(name, draw) {
                let [p, q, r] = call.sizes;
                let [x, y] = call.floats.map(pattern);
                let (at, answer) = (numbers.len(), call.answer);
                let (a, b, m) = &call.lent;
                let lengths = format!("{}, {}, {}", a.len(), b.len(), m.len());
                writeln!(heads, "    {kind}, {p}, {q}, {r}, 0x{x:x}, 0x{y:x}, {at}, 0x{answer:x}, {lengths},").unwrap();
                for (a, b, m) in [&call.lent, &call.left] {
                    numbers.extend(a.iter().chain(b).map(|&x| pattern(x)));
                    numbers.extend(m.iter().map(|&k| k as u64));
                }
            }
        }
        writeln!(text, "\npub const {table}_HEADS: [u64; {}] = [\n{heads}];", 11 * calls).unwrap();
        writeln!(text, "\npub const {table}: [u64; {}] = [", numbers.len()).unwrap();
        for line in numbers.chunks(LINE) {
            let line: Vec<String> = line.iter().map(|x| format!("0x{x:x},")).collect();
            writeln!(text, "    {}", line.join(" ")).unwrap();
        }
        text.push_str("];\n");
    }
    text
}

fn drawn(name: &str, draw: fn(&mut Random) -> Call) -> Vec<Call> {
    let mut random = Random::new(SEED, name);
    std::iter::repeat_with(|| draw(&mut random)).filter(Call::fits).take(CALLS).collect()
}

fn list(random: &mut Random, length: usize) -> Vec<f64> {
    let kind = random.kind();
    random.list(kind, length)
}

fn vmnorm(random: &mut Random) -> Call {
    let n = random.within(1, 5);
    let (v, w) = (list(random, n), list(random, n));
    let answer = pattern(reach::vmnorm(&v, &w));
    Call { answer, ..Call::new([0; 3], [0.0; 2], (v, w, vec![])) }
}

fn fnorm_dense(random: &mut Random) -> Call {
    let n = random.within(1, 4);
    let (a, w) = (list(random, n * n), list(random, n));
    let answer = pattern(reach::fnorm_dense(n, &a, &w));
    Call { answer, ..Call::new([n, 0, 0], [0.0; 2], (a, w, vec![])) }
}

/// With an interval whose length is a number: the answer's sign is compared.
fn initial_step_size(random: &mut Random) -> Call {
    let n = random.within(1, 4);
    let ((rtol, their_rtol), (atol, their_atol)) = (vectors::tolerances(random, n), vectors::tolerances(random, n));
    let (y, f0, w) = (list(random, n), list(random, n), list(random, n));
    let (kind, other) = (random.kind(), random.kind());
    let (t, tout) = (random.draw(kind), random.draw(other));
    if (tout - t).is_nan() {
        return initial_step_size(random);
    }
    let answer = pattern(reach::initial_step_size(t, tout, &y, &f0, &w, &their_rtol, &their_atol));
    let behind = [&f0[..], &w, &rtol, &atol].concat();
    Call { answer, ..Call::new([n, rtol.len(), 0], [t, tout], (y, behind, vec![])) }
}

fn ewset(random: &mut Random) -> Call {
    let n = random.within(1, 5);
    let ((rtol, their_rtol), (atol, their_atol)) = (vectors::tolerances(random, n), vectors::tolerances(random, n));
    let at = n + random.within(0, 1);
    let work = list(random, at + n);
    let lent = (work, [&rtol[..], &atol].concat(), vec![]);
    let mut call = Call::new([n, at, rtol.len()], [0.0; 2], lent);
    reach::ewset(&their_rtol, &their_atol, &call.lent.0[..n], &mut call.left.0[at..]);
    call
}

fn ewset_scalar_like(random: &mut Random) -> Call {
    let n = random.within(1, 5);
    let at = n + random.within(0, 1);
    let mut work = list(random, at + n);
    work[0] = f64::from_bits(f64::EPSILON.to_bits() - 1 + random.below(3));
    let mut call = Call::new([n, at, 0], [0.0; 2], (work, vec![], vec![]));
    reach::ewset_scalar_like(&call.lent.0[..n], &mut call.left.0[at..]);
    call
}

fn invert_weights(random: &mut Random) -> Call {
    let n = random.within(1, 5);
    let mut ewt = list(random, n);
    if random.below(2) == 0 {
        ewt.iter_mut().for_each(|x| *x = x.abs());
    }
    let mut call = Call::new([0; 3], [0.0; 2], (ewt, vec![], vec![]));
    call.answer = match reach::invert_weights(&mut call.left.0) {
        Ok(()) => n as u64,
        Err(Error::Config(ConfigError::NegativeTolerance { index, .. })) => index as u64,
        Err(other) => panic!("{other:?}"),
    };
    call
}

fn dense_lu_factor(random: &mut Random) -> Call {
    let n = random.within(1, 4);
    let mut call = Call::new([n, 0, 0], [0.0; 2], (dense::matrix(random, n), vec![], vec![7; n]));
    call.answer = u64::from(reach::dense_lu_factor(&mut call.left.0, n, &mut call.left.2).is_err());
    call
}

fn dense_lu_solve(random: &mut Random) -> Call {
    let n = random.within(1, 4);
    let mut a = dense::matrix(random, n);
    let mut ipiv = vec![0; n];
    // what a refusal leaves is no less a matrix
    let _ = reach::dense_lu_factor(&mut a, n, &mut ipiv);
    let (b, right) = (random.within(0, 1), list(random, n));
    let at = b + n;
    let work = [&vec![7.0; b][..], &right, &a].concat();
    let mut call = Call::new([n, at, b], [0.0; 2], (work, vec![], ipiv));
    call.answer = u64::from(reach::dense_lu_solve(&a, n, &call.lent.2, &mut call.left.0[b..at]).is_err());
    call
}

fn columns(random: &mut Random, run: impl Fn(&mut State, &mut [f64])) -> Call {
    let n = random.within(1, 3);
    let order = random.within(1, 12);
    let nq = random.within(1, order);
    let nqnyh = order * n;
    let mut call = Call::new([n, nq, nqnyh], [0.0; 2], (list(random, 13 * n), vec![], vec![]));
    run(&mut State { nq, nqnyh, ..State::new(n) }, &mut call.left.0);
    call
}

/// One or two states.
fn record(random: &mut Random) -> Record {
    loop {
        let record = Record::draw(random);
        if record.n() <= 2 {
            return record;
        }
    }
}

/// A function on a record and its work; the argument is a factor for a rescale, no zero.
fn of_record(random: &mut Random, run: impl Fn(&mut State, &mut Buffers, f64)) -> Call {
    let mut record = record(random);
    let rh = random.within(1, 1 << 20) as f64 / (1 << 18) as f64;
    if random.below(2) == 0 {
        record.floats[float::RMAX] = 10_000.0;
    }
    let n = record.n();
    let lent = (list(random, 19 * n), record.floats.to_vec(), record.counts.to_vec());
    let mut call = Call::new([0; 3], [rh, 0.0], lent);
    let mut state = record.state(random);
    let mut theirs = Buffers::new(n, 13);
    theirs.yh.copy_from_slice(&call.lent.0[..13 * n]);
    theirs.acor.copy_from_slice(&call.lent.0[16 * n..17 * n]);
    run(&mut state, &mut theirs, rh);
    call.left.0[..13 * n].copy_from_slice(&theirs.yh);
    let left = record.of(&state);
    (call.left.1, call.left.2) = (left.floats.to_vec(), left.counts.to_vec());
    call
}

/// For a function that is lent a record alone.
fn without_work(mut call: Call) -> Call {
    (call.lent.0, call.left.0) = (vec![], vec![]);
    call
}

fn snapshot_step(random: &mut Random) -> Call {
    let record = record(random);
    let n = record.n();
    let work = list(random, 19 * n);
    let lent = (list(random, 14 * n + 6), [&record.floats[..], &work].concat(), record.counts.to_vec());
    let mut call = Call::new([0; 3], [0.0; 2], lent);
    let snapshot = interpolation::snapshot(&record, random, &work);
    call.left.0[n..n + snapshot.len()].copy_from_slice(&snapshot);
    call
}

/// Half of them damaged.
fn interpolate(random: &mut Random) -> Call {
    let (mut cont, xi) = interpolation::drawn(random);
    let mut length = cont[0] as usize;
    if random.below(2) == 0 {
        length = interpolation::damage(random, &mut cont);
    }
    let mut call = Call::new([0; 3], [xi, 0.0], (list(random, length), cont, vec![]));
    call.answer = rules::interpolation(&call.lent.1, length) as u64;
    if call.answer != 15 {
        LSODA::interpolate(xi, &mut call.left.0, &call.lent.1, 0.0, 0.0);
    }
    call
}
