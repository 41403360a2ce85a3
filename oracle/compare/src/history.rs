//! The history and the record: predict, retract, rescale, the correction, first call and reset, from crafted records of
//! both families at orders 1 to 12, with no table, the Adams table and the BDF table.

use crate::cases::Random;
use crate::ours;
use crate::record::{Record, count, float};
use crate::report::{Report, Tally, all_bits, all_same, bits};
use reference::reach::{self, Buffers, State};

pub fn compare(report: &mut Report, calls: u64, seed: u64) {
    passes(report, calls, seed, "predict_columns");
    passes(report, calls, seed, "retract_columns");
    correct_columns(report, calls, seed);
    stoda_adjust_step_size(report, calls, seed);
    stoda_get_predicted_values(report, calls, seed);
    stoda_first_call_init(report, calls, seed);
    stoda_reset(report, calls, seed);
    refused(report);
}

/// How many columns a history has, and how many numbers the work before the matrix.
const COLUMNS: usize = 13;
const VECTORS: usize = 19;

fn passes(report: &mut Report, calls: u64, seed: u64, name: &str) {
    let mut tally = Tally::new(name);
    let mut random = Random::new(seed, name);
    for _ in 0..calls {
        let n = random.states();
        let order = random.within(1, 12);
        let nq = if random.below(2) == 0 { order } else { random.within(1, order) };
        // above nq·n as a family change leaves it, and at any number of entries
        let nqnyh = if random.below(4) == 0 { random.within(nq * n, 12 * n) } else { order * n };
        let kind = random.kind();
        let behind = random.within(0, 2);
        let given = random.list(kind, COLUMNS * n + behind);
        let (mut ours, mut theirs) = (given.clone(), given.clone());
        let mut state = State { nq, nqnyh, ..State::new(n) };
        let number = if name == "predict_columns" {
            reach::stoda_get_predicted_values(&mut state, &mut theirs);
            ours::predict_columns(&mut ours, n, nq, nqnyh)
        } else {
            reach::retract_yh(&state, &mut theirs);
            ours::retract_columns(&mut ours, n, nq, nqnyh)
        };
        tally.case(number == 0 && all_same(&ours, &theirs), || {
            let given = format!("{} {n} {nq} {nqnyh}", all_bits(&given));
            format!("{given}: ours {number} {}, theirs {}", all_bits(&ours), all_bits(&theirs))
        });
    }
    for (n, nq, nqnyh) in [(65, 1, 65), (2, 13, 26), (2, 3, 5), (2, 3, 25), (2, 3, usize::MAX), (usize::MAX, 1, 1)] {
        let mut yh = [3.0; 26];
        let number = match name {
            "predict_columns" => ours::predict_columns(&mut yh, n, nq, nqnyh),
            _ => ours::retract_columns(&mut yh, n, nq, nqnyh),
        };
        tally.case(number == 2 && yh == [3.0; 26], || format!("{n} {nq} {nqnyh} is not left alone"));
    }
    report.end(tally, "");
}

/// One call of ours on a record and its work, beside the reference's record and buffers.
struct Call {
    given: Record,
    ours: Record,
    work: Vec<f64>,
    state: State,
    theirs: Buffers,
}

impl Call {
    fn new(random: &mut Random, given: Record) -> Self {
        let n = given.n();
        let kind = random.kind();
        let work = random.list(kind, VECTORS * n);
        let state = given.state(random);
        let mut theirs = Buffers::new(n, COLUMNS);
        theirs.yh.copy_from_slice(&work[..COLUMNS * n]);
        theirs.acor.copy_from_slice(&work[16 * n..17 * n]);
        Call { ours: given.clone(), given, work, state, theirs }
    }

    /// The whole record and the whole work, of which the reference changes the history alone.
    fn compare(&self, tally: &mut Tally, number: usize, before: &[f64], argument: f64) {
        let theirs = self.given.of(&self.state);
        let columns = self.theirs.yh.len();
        let agree = number == 0
            && self.ours.counts == theirs.counts
            && all_same(&self.ours.floats, &theirs.floats)
            && all_same(&self.work[..columns], &self.theirs.yh)
            && all_same(&self.work[columns..], &before[columns..]);
        tally.case(agree, || {
            let record = |r: &Record| format!("{} {:?}", all_bits(&r.floats), r.counts);
            let given = format!("{} {} {}", record(&self.given), bits(argument), all_bits(before));
            let ours = format!("{number} {} {}", record(&self.ours), all_bits(&self.work));
            format!("{given}: ours {ours}, theirs {} {}", record(&theirs), all_bits(&self.theirs.yh))
        });
    }
}

fn correct_columns(report: &mut Report, calls: u64, seed: u64) {
    let mut tally = Tally::new("correct_columns");
    let mut random = Random::new(seed, "correct_columns");
    for _ in 0..calls {
        let record = Record::draw(&mut random);
        let mut call = Call::new(&mut random, record);
        let before = call.work.clone();
        reach::correct_columns(&call.state, &mut call.theirs);
        let number = ours::correct_columns(&call.ours.floats, &call.ours.counts, &mut call.work);
        call.compare(&mut tally, number, &before, 0.0);
    }
    report.end(tally, "");
}

/// A factor and rmax are never zeros of unlike signs: Rust's minimum may give either.
fn stoda_adjust_step_size(report: &mut Report, calls: u64, seed: u64) {
    let mut tally = Tally::new("stoda_adjust_step_size");
    let mut random = Random::new(seed, "stoda_adjust_step_size");
    let mut limited = 0;
    for _ in 0..calls {
        let mut record = Record::draw(&mut random);
        let kind = random.kind();
        let rh = if random.below(2) == 0 { random.draw(kind) } else { random.below(1 << 20) as f64 / (1 << 18) as f64 };
        if random.below(3) == 0 {
            record.at_stability_limit(&mut random, rh);
        }
        if rh == 0.0 && record.floats[float::RMAX] == 0.0 {
            record.floats[float::RMAX] = rh;
        }
        let mut call = Call::new(&mut random, record);
        let before = call.work.clone();
        let mut factor = rh;
        reach::stoda_adjust_step_size(&mut call.state, &mut factor, &mut call.theirs.yh);
        limited += call.state.irflag;
        let Record { floats, counts } = &mut call.ours;
        let number = ours::stoda_adjust_step_size(floats, counts, rh, &mut call.work);
        call.compare(&mut tally, number, &before, rh);
    }
    report.end(tally, format!("{limited} of them at the stability limit"));
}

fn stoda_get_predicted_values(report: &mut Report, calls: u64, seed: u64) {
    let mut tally = Tally::new("stoda_get_predicted_values");
    let mut random = Random::new(seed, "stoda_get_predicted_values");
    for _ in 0..calls {
        let record = Record::draw(&mut random);
        let mut call = Call::new(&mut random, record);
        let before = call.work.clone();
        reach::stoda_get_predicted_values(&mut call.state, &mut call.theirs.yh);
        let Record { floats, counts } = &mut call.ours;
        let number = ours::stoda_get_predicted_values(floats, counts, &mut call.work);
        call.compare(&mut tally, number, &before, 0.0);
    }
    report.end(tally, "");
}

fn stoda_first_call_init(report: &mut Report, calls: u64, seed: u64) {
    let mut tally = Tally::new("stoda_first_call_init");
    let mut random = Random::new(seed, "stoda_first_call_init");
    for _ in 0..calls {
        let record = Record::draw(&mut random);
        let mut call = Call::new(&mut random, record);
        reach::stoda_first_call_init(&mut call.state);
        let Record { floats, counts } = &mut call.ours;
        let number = ours::stoda_first_call_init(floats, counts);
        call.compare(&mut tally, number, &call.work, 0.0);
    }
    report.end(tally, "");
}

/// Beside the record, el: ours is the row of the order in force.
fn stoda_reset(report: &mut Report, calls: u64, seed: u64) {
    let mut tally = Tally::new("stoda_reset");
    let mut el = Tally::new("stoda_reset, el");
    let mut random = Random::new(seed, "stoda_reset");
    for _ in 0..calls {
        let record = Record::draw(&mut random);
        let mut call = Call::new(&mut random, record);
        reach::stoda_reset(&mut call.state);
        let Record { floats, counts } = &mut call.ours;
        let number = ours::stoda_reset(floats, counts);
        call.compare(&mut tally, number, &call.work, 0.0);
        let order = call.ours.counts[count::NQNYH] / call.ours.n();
        let table = call.ours.counts[count::TABLE];
        for j in 0..call.state.l {
            let theirs = call.state.el[j];
            el.number(ours::probe_elco(table, order, j), theirs, || format!("{table} {order} {j}"));
        }
    }
    report.end(tally, "");
    report.end(el, "");
}

/// A record outside the ranges, or lent with another length, is answered by 2, and everything stays.
fn refused(report: &mut Report) {
    let mut tally = Tally::new("records out of range");
    let mut random = Random::new(0, "records out of range");
    let good = Record::draw(&mut random);
    let out = [
        (count::N, 0),
        (count::N, 65),
        (count::N, usize::MAX),
        (count::MXORDN, 1_000_001),
        (count::MXORDS, 1_000_001),
        (count::MSBP, 1_000_001),
        (count::NQ, 0),
        (count::NQ, 13),
        (count::NQNYH, good.nq() * good.n() - 1),
        (count::NQNYH, 12 * good.n() + 1),
        (count::TABLE, 3),
        (count::NSLP, 1 << 62),
    ];
    let mut cases: Vec<(Vec<f64>, Vec<usize>, usize)> = out
        .iter()
        .map(|&(place, value)| {
            let mut counts = good.counts.to_vec();
            counts[place] = value;
            (good.floats.to_vec(), counts, VECTORS * 64)
        })
        .collect();
    cases.push((good.floats[1..].to_vec(), good.counts.to_vec(), VECTORS * 64));
    cases.push((good.floats.to_vec(), good.counts[1..].to_vec(), VECTORS * 64));
    for (floats, counts, length) in cases {
        let work = vec![3.0; length];
        let mut tell = |name: &str, run: &mut dyn FnMut(&mut [f64], &mut [usize], &mut [f64]) -> usize| {
            let (mut f, mut c, mut w) = (floats.clone(), counts.clone(), work.clone());
            let number = run(&mut f, &mut c, &mut w);
            let unchanged = number == 2 && all_same(&f, &floats) && c == counts && w == work;
            tally.case(unchanged, || format!("{name} {counts:?} is not left alone"));
        };
        tell("correct_columns", &mut |f, c, w| ours::correct_columns(f, c, w));
        tell("stoda_adjust_step_size", &mut |f, c, w| ours::stoda_adjust_step_size(f, c, 0.5, w));
        tell("stoda_get_predicted_values", &mut |f, c, w| ours::stoda_get_predicted_values(f, c, w));
        tell("stoda_first_call_init", &mut |f, c, _| ours::stoda_first_call_init(f, c));
        tell("stoda_reset", &mut |f, c, _| ours::stoda_reset(f, c));
        tell("snapshot_step", &mut |f, c, w| ours::snapshot_step(f, c, &work, w));
    }
    let (floats, counts) = (good.floats, good.counts);
    let mut short = vec![3.0; VECTORS * good.n() - 1];
    let number = ours::correct_columns(&floats, &counts, &mut short);
    tally.case(number == 2 && short.iter().all(|&x| x == 3.0), || "short work is not left alone".to_string());
    report.end(tally, "");
}
