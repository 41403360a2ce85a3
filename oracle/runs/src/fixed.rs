//! What a start writes into the session and no reply changes, by the words of docs/SESSION.md: settings, interval,
//! limits and tolerances, the slots beyond a list's end included. And the rest of the record as `solve` begins with it.

use crate::mirror;
use crate::problem::Problem;
use crate::session::{ATOL, FIELDS, Field, LENGTH, RTOL, count, phase, set_count, set_word};
use crate::sides::pattern;
use reference::reach::State;
use std::ops::Range;

/// The session's bytes, of which only the parts that stay are to be compared.
pub struct Fixed(Vec<u8>);

/// The words that stay.
const STAY: [Range<usize>; 3] =
    [Field::n as usize..Field::meth as usize, Field::xend as usize..Field::tn as usize, FIELDS.len()..LENGTH / 8];

impl Fixed {
    pub fn new(problem: &Problem) -> Self {
        let Problem { x0, xend, y0, rtol, atol, options, .. } = problem;
        let mut session = vec![0; LENGTH];
        let counts = [
            (Field::n, y0.len()),
            (Field::maxsteps, options.max_steps),
            (Field::mxordn, options.mxordn),
            (Field::mxords, options.mxords),
            (Field::maxcor, options.maxcor),
            (Field::msbp, options.msbp),
            (Field::mxncf, options.mxncf),
            (Field::supplied, usize::from(options.supplied != 0)),
            (Field::given, usize::from(options.has_first_step != 0)),
            (Field::nrtol, rtol.len()),
            (Field::natol, atol.len()),
        ];
        counts.iter().for_each(|&(field, value)| set_count(&mut session, field, value as u64));
        let length = xend - x0;
        let largest = if options.has_max_step != 0 { options.max_step.abs() } else { length.abs() };
        let floats = [
            (Field::xend, *xend),
            (Field::direction, length.signum()),
            (Field::hmin, if options.has_min_step != 0 { options.min_step.abs() } else { 0.0 }),
            (Field::hmxi, if largest > 0.0 { 1.0 / largest } else { 0.0 }),
        ];
        floats.iter().for_each(|&(field, value)| set_count(&mut session, field, pattern(value)));
        for (at, list) in [(RTOL, rtol), (ATOL, atol)] {
            list.iter().enumerate().for_each(|(i, &x)| set_word(&mut session, at + i, pattern(x)));
        }
        Fixed(session)
    }

    /// Whether a session has these words.
    pub fn stays(&self, session: &[u8]) -> bool {
        STAY.iter().all(|words| {
            let bytes = 8 * words.start..8 * words.end;
            self.0[bytes.clone()] == session[bytes]
        })
    }
}

/// What the session of a start has otherwise than `Common` in `solve` when the first derivative is asked for. There
/// `lmax` counts from the orders as they are given, which shows nowhere, and a given first step is not yet taken.
pub fn begins_otherwise(session: &[u8], problem: &Problem) -> Option<String> {
    let options = &problem.options;
    let mut state = State::new(problem.n());
    state.tn = problem.x0;
    state.lmax = options.mxordn.min(12).max(options.mxords.min(5)) + 1;
    state.nfe = 1;
    state.h = if options.has_first_step != 0 { options.first_step } else { 0.0 };
    let own = [
        (Field::phase, phase::FIRST_DERIVATIVE),
        (Field::count, 0),
        (Field::kflag, 0),
        (Field::ncf, 0),
        (Field::m, 0),
        (Field::column, 0),
        (Field::told, pattern(problem.x0)),
        (Field::pnorm, 0),
        (Field::rate, 0),
        (Field::delp, 0),
    ];
    let other = own.iter().find(|&&(field, value)| count(session, field) != value);
    mirror::record_differs(session, &state).or(other.map(|(field, value)| format!("{field:?} is not {value}")))
}
