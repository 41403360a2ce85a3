//! The product's calls as a host declares them, by C's rules: a lent slice is a pointer and a length, a struct goes by
//! value. The static library comes with `reference`, which links it for its root.

#[repr(C)]
#[derive(Clone, Copy, Debug)]
pub struct Options {
    pub max_steps: usize,
    pub mxordn: usize,
    pub mxords: usize,
    pub maxcor: usize,
    pub msbp: usize,
    pub mxncf: usize,
    pub banded: usize,
    pub supplied: usize,
    pub has_max_step: usize,
    pub has_min_step: usize,
    pub has_first_step: usize,
    pub max_step: f64,
    pub min_step: f64,
    pub first_step: f64,
}

/// What a call answers. Fields that a number has no use for are 0.
#[repr(C)]
#[derive(Clone, Copy, Debug)]
pub struct Reply {
    pub number: usize,
    pub index: usize,
    pub value: f64,
    pub time: f64,
    pub previous: f64,
    pub count: usize,
    pub order: usize,
    pub h: f64,
    pub nfe: usize,
    pub nje: usize,
    pub nlu: usize,
    pub total: usize,
    pub accepted: usize,
    pub rejected: usize,
}

/// The numbers that a call answers beside the refusals 1 to 14.
pub mod number {
    pub const DERIVATIVE: usize = 100;
    pub const JACOBIAN: usize = 101;
    pub const FIRST_REPORT: usize = 102;
    pub const REPORT: usize = 103;
    pub const SUCCESS: usize = 110;
    pub const INTERRUPTED: usize = 111;
    pub const NEEDS_MORE_STEPS: usize = 112;
    pub const TOO_SMALL: usize = 113;
    pub const POOR: usize = 114;
    pub const GAP: usize = 115;
}

/// The kinds of a reply.
pub mod kind {
    pub const DERIVATIVE: usize = 1;
    pub const JACOBIAN: usize = 2;
    pub const CONTINUE: usize = 3;
    pub const INTERRUPT: usize = 4;
    pub const MODIFIED: usize = 5;
}

unsafe extern "C" {
    fn raimsklo_start(
        x0: f64,
        xend: f64,
        y0: *const f64,
        y0_length: usize,
        rtol: *const f64,
        rtol_length: usize,
        atol: *const f64,
        atol_length: usize,
        options: Options,
        work: *mut f64,
        work_length: usize,
        pivots: *mut usize,
        pivots_length: usize,
        session: *mut u8,
        session_length: usize,
        question: *mut f64,
        question_length: usize,
    ) -> Reply;

    fn raimsklo_reply(
        kind: usize,
        numbers: *const f64,
        numbers_length: usize,
        time: f64,
        work: *mut f64,
        work_length: usize,
        pivots: *mut usize,
        pivots_length: usize,
        session: *mut u8,
        session_length: usize,
        question: *mut f64,
        question_length: usize,
    ) -> Reply;

    fn raimsklo_interpolate(
        xi: f64,
        pose: *mut f64,
        pose_length: usize,
        snapshot: *const f64,
        snapshot_length: usize,
    ) -> usize;

    safe fn raimsklo_defaults() -> Options;
    safe fn raimsklo_work_length(n: usize) -> usize;
    safe fn raimsklo_question_length(n: usize) -> usize;
    safe fn raimsklo_session_length() -> usize;
}

/// What is lent to a call.
#[derive(Clone)]
pub struct Lent {
    pub work: Vec<f64>,
    pub pivots: Vec<usize>,
    pub session: Vec<u8>,
    pub question: Vec<f64>,
}

impl Lent {
    /// Of the lengths that n states need, 0 throughout.
    pub fn new(n: usize) -> Self {
        Lent {
            work: vec![0.0; raimsklo_work_length(n)],
            pivots: vec![0; n],
            session: vec![0; raimsklo_session_length()],
            question: vec![0.0; raimsklo_question_length(n)],
        }
    }

    /// Every byte of every slice, NaNs by their patterns.
    pub fn is(&self, other: &Lent) -> bool {
        let bits =
            |a: &[f64], b: &[f64]| a.len() == b.len() && a.iter().zip(b).all(|(a, b)| a.to_bits() == b.to_bits());
        bits(&self.work, &other.work)
            && self.pivots == other.pivots
            && self.session == other.session
            && bits(&self.question, &other.question)
    }
}

pub fn start(x0: f64, xend: f64, y0: &[f64], rtol: &[f64], atol: &[f64], options: Options, lent: &mut Lent) -> Reply {
    let Lent { work, pivots, session, question } = lent;
    // Sound: each pointer is lent with the length of the slice it comes from.
    unsafe {
        raimsklo_start(
            x0,
            xend,
            y0.as_ptr(),
            y0.len(),
            rtol.as_ptr(),
            rtol.len(),
            atol.as_ptr(),
            atol.len(),
            options,
            work.as_mut_ptr(),
            work.len(),
            pivots.as_mut_ptr(),
            pivots.len(),
            session.as_mut_ptr(),
            session.len(),
            question.as_mut_ptr(),
            question.len(),
        )
    }
}

pub fn reply(kind: usize, numbers: &[f64], time: f64, lent: &mut Lent) -> Reply {
    let Lent { work, pivots, session, question } = lent;
    // Sound: as above.
    unsafe {
        raimsklo_reply(
            kind,
            numbers.as_ptr(),
            numbers.len(),
            time,
            work.as_mut_ptr(),
            work.len(),
            pivots.as_mut_ptr(),
            pivots.len(),
            session.as_mut_ptr(),
            session.len(),
            question.as_mut_ptr(),
            question.len(),
        )
    }
}

pub fn interpolate(xi: f64, pose: &mut [f64], snapshot: &[f64]) -> usize {
    // Sound: as above.
    unsafe { raimsklo_interpolate(xi, pose.as_mut_ptr(), pose.len(), snapshot.as_ptr(), snapshot.len()) }
}

pub fn defaults() -> Options {
    raimsklo_defaults()
}
