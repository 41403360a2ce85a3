//! What is seen of a run from outside. Two runs are the same if their lists of events are.

use crate::report::{all_same, same};

#[derive(Clone, Debug)]
pub enum Event {
    Derivative {
        time: f64,
        y: Vec<f64>,
    },
    Jacobian {
        time: f64,
        y: Vec<f64>,
    },
    FirstReport {
        previous: f64,
        time: f64,
        y: Vec<f64>,
    },
    Report(Box<Report>),
    End(End),
    /// 11 after the first derivative, or any of 4 to 11 at the start.
    Refused {
        number: usize,
        index: usize,
        value: f64,
    },
    /// The reference panics: at the coefficient gap and nowhere else.
    Panicked,
    /// A rule that only our calls have was not kept: which one is for the account of a difference.
    Broken(#[allow(dead_code)] String),
}

#[derive(Clone, Debug)]
pub struct Report {
    pub previous: f64,
    pub time: f64,
    pub y: Vec<f64>,
    /// Derivatives requested in the step.
    pub count: usize,
    pub snapshot: Vec<f64>,
    /// What interpolation gives at several times by the report, one pose behind the other.
    pub poses: Vec<f64>,
}

#[derive(Clone, Debug)]
pub struct End {
    pub number: usize,
    pub h: f64,
    /// Derivatives, Jacobians, factorings.
    pub evaluations: [usize; 3],
    /// Total, accepted, rejected.
    pub steps: [usize; 3],
}

impl Event {
    /// Equal, any NaN to any other.
    pub fn is(&self, other: &Event) -> bool {
        use Event::*;
        match (self, other) {
            (Derivative { time: t, y }, Derivative { time, y: z }) => same(*t, *time) && all_same(y, z),
            (Jacobian { time: t, y }, Jacobian { time, y: z }) => same(*t, *time) && all_same(y, z),
            (FirstReport { previous: p, time: t, y }, FirstReport { previous, time, y: z }) => {
                same(*p, *previous) && same(*t, *time) && all_same(y, z)
            }
            (Report(a), Report(b)) => {
                same(a.previous, b.previous)
                    && same(a.time, b.time)
                    && all_same(&a.y, &b.y)
                    && a.count == b.count
                    && all_same(&a.snapshot, &b.snapshot)
                    && all_same(&a.poses, &b.poses)
            }
            (End(a), End(b)) => {
                (a.number, a.evaluations, a.steps) == (b.number, b.evaluations, b.steps) && same(a.h, b.h)
            }
            (Refused { number: a, index: i, value: v }, Refused { number, index, value }) => {
                (a, i) == (number, index) && same(*v, *value)
            }
            (Panicked, End(end)) | (End(end), Panicked) => end.number == crate::calls::number::GAP,
            _ => false,
        }
    }
}

/// Where two lists differ first, told.
pub fn first_difference(ours: &[Event], theirs: &[Event]) -> Option<String> {
    let at = (0..ours.len().max(theirs.len())).find(|&i| match (ours.get(i), theirs.get(i)) {
        (Some(a), Some(b)) => !a.is(b),
        _ => true,
    })?;
    Some(format!("event {at}\n    ours   {:?}\n    theirs {:?}", ours.get(at), theirs.get(at)))
}
