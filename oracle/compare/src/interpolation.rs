//! The snapshot and its dense output: `snapshot_step`, and `interpolate` on whole and on damaged snapshots.

use crate::cases::{Kind, Random};
use crate::record::Record;
use crate::report::{Report, Tally, all_bits, all_same, bits};
use crate::{ours, rules};
use reference::methods::LSODA;
use reference::reach::{self, Buffers};

pub fn compare(report: &mut Report, calls: u64, seed: u64) {
    snapshot_step(report, calls, seed);
    interpolate(report, calls, seed);
    damaged(report, calls, seed);
}

/// The reference's snapshot. Ours stands in the question from n on.
pub fn snapshot(record: &Record, random: &mut Random, work: &[f64]) -> Vec<f64> {
    let mut buffers = Buffers::new(record.n(), 13);
    buffers.yh.copy_from_slice(&work[..13 * record.n()]);
    reach::snapshot_step(&record.state(random), &mut buffers)
}

fn snapshot_step(report: &mut Report, calls: u64, seed: u64) {
    let mut tally = Tally::new("snapshot_step");
    let mut random = Random::new(seed, "snapshot_step");
    for _ in 0..calls {
        let record = Record::draw(&mut random);
        let n = record.n();
        let kind = random.kind();
        let work = random.list(kind, 19 * n);
        let question = random.list(Kind::Plain, 14 * n + 6);
        let snapshot = snapshot(&record, &mut random, &work);
        let mut theirs = question.clone();
        theirs[n..n + snapshot.len()].copy_from_slice(&snapshot);
        let mut ours = question.clone();
        let number = ours::snapshot_step(&record.floats, &record.counts, &work, &mut ours);
        tally.case(number == 0 && all_same(&ours, &theirs), || {
            let given = format!("{} {:?} {}", all_bits(&record.floats), record.counts, all_bits(&work));
            format!("{given}: ours {number} {}, theirs {}", all_bits(&ours), all_bits(&theirs))
        });
    }
    let (record, work) = (Record::draw(&mut random), [1.0; 19 * 64]);
    let mut short = vec![3.0; 14 * record.n() + 5];
    let number = ours::snapshot_step(&record.floats, &record.counts, &work, &mut short);
    tally.case(number == 2 && short.iter().all(|&x| x == 3.0), || "a short question is not left alone".to_string());
    report.end(tally, "");
}

/// A snapshot at any order, 0 among them, and a time: now and then the snapshot's own, or its step's start.
pub fn drawn(random: &mut Random) -> (Vec<f64>, f64) {
    let record = Record::draw(random);
    let kind = random.kind();
    let work = random.list(kind, 19 * record.n());
    let mut cont = snapshot(&record, random, &work);
    if random.below(8) == 0 {
        cont[1] = 0.0;
    }
    let kind = random.kind();
    let xi = match random.below(4) {
        0 => cont[2],
        1 => cont[2] - cont[3],
        2 => cont[2] - cont[3] * random.below(1 << 20) as f64 / (1 << 20) as f64,
        _ => random.draw(kind),
    };
    (cont, xi)
}

/// Ours and the reference's at one time, and whether they agree.
fn at(tally: &mut Tally, cont: &[f64], xi: f64, output: &[f64]) -> usize {
    let rule = rules::interpolation(cont, output.len());
    let mut theirs = output.to_vec();
    if rule != 15 {
        // on 16 and 17 it returns silently; of what 15 refuses it would take a part, or stop
        LSODA::interpolate(xi, &mut theirs, cont, 0.0, 0.0);
    }
    let mut ours = output.to_vec();
    let number = ours::interpolate(xi, &mut ours, cont);
    let unchanged = number == 0 || all_same(&ours, output);
    tally.case(number == rule && unchanged && all_same(&ours, &theirs), || {
        let given = format!("{} {} {}", bits(xi), all_bits(cont), all_bits(output));
        format!("{given}: ours {number} {}, theirs {rule} {}", all_bits(&ours), all_bits(&theirs))
    });
    rule
}

fn interpolate(report: &mut Report, calls: u64, seed: u64) {
    let mut tally = Tally::new("interpolate");
    let mut random = Random::new(seed, "interpolate");
    for _ in 0..calls {
        let (cont, xi) = drawn(&mut random);
        let output = random.list(Kind::Plain, cont[0] as usize);
        at(&mut tally, &cont, xi, &output);
    }
    report.end(tally, "");
}

/// Lengths, headers and step sizes that are not what a snapshot has.
fn damaged(report: &mut Report, calls: u64, seed: u64) {
    let mut tally = Tally::new("interpolate, damaged snapshots");
    let mut random = Random::new(seed, "interpolate, damaged snapshots");
    let mut by_rule = [0u64; 18];
    for _ in 0..calls {
        let (mut cont, xi) = drawn(&mut random);
        let length = damage(&mut random, &mut cont);
        let output = random.list(Kind::Any, length);
        by_rule[at(&mut tally, &cont, xi, &output)] += 1;
    }
    let told = format!("{} taken, {} 15, {} 16, {} 17", by_rule[0], by_rule[15], by_rule[16], by_rule[17]);
    report.end(tally, told);
}

/// Damages a snapshot once or twice, and gives the output's length.
pub fn damage(random: &mut Random, cont: &mut Vec<f64>) -> usize {
    let mut length = cont[0] as usize;
    for _ in 0..random.within(1, 2) {
        match random.below(7) {
            0 => cont[0] = header(random, cont[0], 64.0),
            1 => cont[1] = header(random, cont[1], 12.0),
            2 => cont[3] = random.one_of(&[0.0, -0.0, f64::NAN, f64::INFINITY, 5.0e-324, -1.0e-310]),
            3 => cont.truncate(random.below(cont.len() as u64 + 1) as usize),
            4 => {
                let more = random.within(1, 3);
                cont.extend(random.list(Kind::Any, more));
            }
            5 => length = random.within(0, 66),
            _ => length = cont.len(),
        }
        if cont.len() < 6 {
            break;
        }
    }
    length
}

/// A number of states or an order that is near what stood there, near the limit, or none at all.
fn header(random: &mut Random, stood: f64, limit: f64) -> f64 {
    let near = f64::from_bits(stood.to_bits().wrapping_sub(1).wrapping_add(random.below(3)));
    let none = [-0.0, 0.0, -1.0, f64::NAN, f64::INFINITY, f64::NEG_INFINITY, 1.0e300, 5.0e-324];
    match random.below(6) {
        0 => near,
        1 => stood + 0.5,
        2 => random.one_of(&none),
        3 => limit + 1.0,
        4 => limit,
        _ => random.below(limit as u64 + 2) as f64,
    }
}
