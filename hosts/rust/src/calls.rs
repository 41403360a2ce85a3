//! The C functions of the library (include/raimsklo.h).

use crate::Options;

/// What a call answers. Fields that a number has no use for are 0.
#[repr(C)]
#[derive(Clone, Copy, Debug)]
pub struct Answer {
    pub number: usize,
    pub index: usize,
    pub value: f64,
    pub time: f64,
    pub previous: f64,
    pub count: usize,
    pub order: usize,
    pub h: f64,
    pub nfe: usize,
    pub nje: usize,
    pub nlu: usize,
    pub total: usize,
    pub accepted: usize,
    pub rejected: usize,
}

#[rustfmt::skip]
extern "C" {
    pub fn raimsklo_defaults() -> Options;
    pub fn raimsklo_start(
        x0: f64, xend: f64,
        y0: *const f64, y0_len: usize,
        rtol: *const f64, rtol_len: usize,
        atol: *const f64, atol_len: usize,
        options: Options,
        work: *mut f64, work_len: usize,
        pivots: *mut usize, pivots_len: usize,
        session: *mut u8, session_len: usize,
        question: *mut f64, question_len: usize,
    ) -> Answer;
    pub fn raimsklo_reply(
        kind: usize,
        numbers: *const f64, numbers_len: usize,
        time: f64,
        work: *mut f64, work_len: usize,
        pivots: *mut usize, pivots_len: usize,
        session: *mut u8, session_len: usize,
        question: *mut f64, question_len: usize,
    ) -> Answer;
    pub fn raimsklo_interpolate(
        xi: f64,
        pose: *mut f64, pose_len: usize,
        snapshot: *const f64, snapshot_len: usize,
    ) -> usize;
    pub fn raimsklo_root(x: f64, k: usize) -> f64;
}
