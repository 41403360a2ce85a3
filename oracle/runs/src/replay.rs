//! Replays the words of the stored sample through our calls, as a program without Rust does. The layout is that of the
//! head which `record.rs` writes.

use crate::calls::{self, Lent, Options, Reply, kind, number};
use crate::ours::is_end;
use crate::sides::pattern;

struct Reader<'a> {
    words: &'a [u64],
    at: usize,
}

impl Reader<'_> {
    fn word(&mut self) -> u64 {
        self.at += 1;
        self.words[self.at - 1]
    }

    fn count(&mut self) -> usize {
        self.word() as usize
    }

    fn float(&mut self) -> f64 {
        f64::from_bits(self.word())
    }

    fn floats(&mut self, length: usize) -> Vec<f64> {
        (0..length).map(|_| self.float()).collect()
    }

    /// Whether the next words are these.
    fn are(&mut self, words: impl IntoIterator<Item = u64>) -> bool {
        words.into_iter().fold(true, |all, word| (self.word() == word) & all)
    }

    fn options(&mut self) -> Options {
        Options {
            max_steps: self.count(),
            mxordn: self.count(),
            mxords: self.count(),
            maxcor: self.count(),
            msbp: self.count(),
            mxncf: self.count(),
            banded: self.count(),
            supplied: self.count(),
            has_max_step: self.count(),
            has_min_step: self.count(),
            has_first_step: self.count(),
            max_step: self.float(),
            min_step: self.float(),
            first_step: self.float(),
        }
    }

    /// Whether a call answered what is stored.
    fn is_answer(&mut self, reply: &Reply, lent: &Lent, n: usize) -> bool {
        let question = |length: usize| lent.question[..length].iter().map(|&x| pattern(x));
        let counts = |list: &[usize]| list.iter().map(|&count| count as u64).collect::<Vec<_>>();
        if !self.are([reply.number as u64]) {
            return false;
        }
        match reply.number {
            number::DERIVATIVE | number::JACOBIAN => self.are([pattern(reply.time)]) & self.are(question(n)),
            number::FIRST_REPORT => {
                let same = pattern(reply.previous) == pattern(reply.time);
                same & self.are([pattern(reply.time)]) & self.are(question(n))
            }
            number::REPORT => {
                let times = self.are([pattern(reply.previous), pattern(reply.time)]);
                let counted = self.are(counts(&[reply.count, reply.order]));
                times & counted & self.are(question(n + 6 + (reply.order + 1) * n))
            }
            1..=12 => self.are(counts(&[reply.index])) & self.are([pattern(reply.value)]),
            _ => {
                let Reply { nfe, nje, nlu, total, accepted, rejected, .. } = *reply;
                self.are([pattern(reply.h)]) & self.are(counts(&[nfe, nje, nlu, total, accepted, rejected]))
            }
        }
    }
}

/// How many runs the words hold, or where our calls answer otherwise.
pub fn replayed(words: &[u64]) -> Result<usize, String> {
    let mut reader = Reader { words, at: 0 };
    let mut runs = 0;
    while reader.at < words.len() {
        run(&mut reader).map_err(|at| format!("run {runs}, the answer at word {at}"))?;
        runs += 1;
    }
    Ok(runs)
}

fn run(reader: &mut Reader) -> Result<(), usize> {
    let (n, nrtol, natol) = (reader.count(), reader.count(), reader.count());
    let options = reader.options();
    let (x0, xend) = (reader.float(), reader.float());
    let (y0, rtol, atol) = (reader.floats(n), reader.floats(nrtol), reader.floats(natol));
    let mut lent = Lent::new(n);
    let mut reply = calls::start(x0, xend, &y0, &rtol, &atol, options, &mut lent);
    loop {
        let at = reader.at;
        if !reader.is_answer(&reply, &lent, n) {
            return Err(at);
        }
        if is_end(reply.number) || reply.number < number::DERIVATIVE {
            return Ok(());
        }
        let kind = reader.count();
        let time = reader.float();
        let numbers = reader.floats(if kind == kind::JACOBIAN { n * n } else { n });
        reply = calls::reply(kind, &numbers, time, &mut lent);
    }
}
