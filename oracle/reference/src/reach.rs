//! Stands inside the module of lsoda.rs, so that the comparisons reach its private functions and records.
//! `State` mirrors `Common` field by field (the family as 1 or 2), `Buffers` mirrors `Work` without `jac`.

use super::{Common, CorrectorStatus, ELCO_COLS, ELCO_ROWS, MXORDS_DEFAULT, MethodFamily, TESCO_ROWS, Work};
use crate::error::Error;
use crate::ivp::FirstOrderSystem;
use crate::matrix::Matrix;
use crate::methods::Tolerance;

pub type Elco = [f64; ELCO_ROWS * ELCO_COLS];
pub type Tesco = [f64; TESCO_ROWS * ELCO_COLS];
pub const SM1: [f64; 12] = super::SM1;

fn family(number: usize) -> MethodFamily {
    match number {
        1 => MethodFamily::Adams,
        2 => MethodFamily::Bdf,
        _ => panic!("family {number}"),
    }
}

macro_rules! state {
    ($($field:ident: $kind:ty),* $(,)?) => {
        #[derive(Clone, Debug)]
        pub struct State {
            pub meth: usize,
            $(pub $field: $kind,)*
        }

        impl State {
            fn of(common: &Common) -> Self {
                State { meth: common.meth as usize, $($field: common.$field,)* }
            }

            fn common(&self) -> Common {
                Common { meth: family(self.meth), $($field: self.$field,)* }
            }
        }
    };
}

state! {
    n: usize, tn: f64, h: f64, hu: f64, hold: f64, hmin: f64, hmxi: f64, uround: f64, tsw: f64,
    mused: usize, miter: usize, jtyp: usize, nq: usize, l: usize, maxord: usize, mxordn: usize, mxords: usize,
    maxcor: usize, msbp: usize, mxncf: usize, jstart: isize, ipup: usize, nslp: usize, icount: isize,
    irflag: usize, ialth: usize, lmax: usize, nqnyh: usize, nst: usize, nfe: usize, nje: usize, nlu: usize,
    nqu: usize, kflag: isize, jcur: usize, ierpj: isize, iersl: isize, icf: usize,
    ccmax: f64, conv_rate: f64, el0: f64, conit: f64, rc: f64, rmax: f64,
    pdest: f64, pdlast: f64, pdnorm: f64, ratio: f64, rejected: usize, total_steps: usize,
    el: [f64; ELCO_ROWS], elco: Elco, tesco: Tesco, cm1: [f64; ELCO_COLS], cm2: [f64; MXORDS_DEFAULT],
}

impl State {
    /// A state of n numbers before its first step, everything that `solve` would set from its arguments at 0.
    pub fn new(n: usize) -> Self {
        State {
            meth: 1, n, tn: 0.0, h: 0.0, hu: 0.0, hold: 0.0, hmin: 0.0, hmxi: 0.0, uround: f64::EPSILON, tsw: 0.0,
            mused: 0, miter: 0, jtyp: 2, nq: 1, l: 2, maxord: 12, mxordn: 12, mxords: 5,
            maxcor: 3, msbp: 20, mxncf: 10, jstart: 0, ipup: 0, nslp: 0, icount: 20,
            irflag: 0, ialth: 2, lmax: 13, nqnyh: n, nst: 0, nfe: 0, nje: 0, nlu: 0,
            nqu: 0, kflag: 0, jcur: 0, ierpj: 0, iersl: 0, icf: 0,
            ccmax: 0.3, conv_rate: 0.7, el0: 1.0, conit: 0.0, rc: 0.0, rmax: 0.0,
            pdest: 0.0, pdlast: 0.0, pdnorm: 0.0, ratio: 5.0, rejected: 0, total_steps: 0,
            el: [0.0; ELCO_ROWS], elco: [0.0; ELCO_ROWS * ELCO_COLS], tesco: [0.0; TESCO_ROWS * ELCO_COLS],
            cm1: [0.0; ELCO_COLS], cm2: [0.0; MXORDS_DEFAULT],
        }
    }

    /// Runs a function on the published record, and takes over what it leaves, by a panic too.
    fn with<T>(&mut self, run: impl FnOnce(&mut Common) -> T) -> T {
        let common = self.common();
        let mut lent = LentState { state: self, common };
        run(&mut lent.common)
    }
}

struct LentState<'a> {
    state: &'a mut State,
    common: Common,
}

impl Drop for LentState<'_> {
    fn drop(&mut self) {
        *self.state = State::of(&self.common);
    }
}

#[derive(Clone, Debug)]
pub struct Buffers {
    pub yh: Vec<f64>,
    pub ewt: Vec<f64>,
    pub savf: Vec<f64>,
    pub ftem: Vec<f64>,
    pub acor: Vec<f64>,
    /// The matrix from place 2 on.
    pub wm: Vec<f64>,
    pub ipiv: Vec<usize>,
}

impl Buffers {
    pub fn new(n: usize, lmax: usize) -> Self {
        Buffers::of(Work::new(n, lmax))
    }

    fn of(work: Work) -> Self {
        let Work { yh, ewt, savf, ftem, acor, wm, ipiv, jac: _ } = work;
        Buffers { yh, ewt, savf, ftem, acor, wm, ipiv }
    }

    /// As for a state. `jac` is filled before each use, so nothing of it is kept.
    fn with<T>(&mut self, run: impl FnOnce(&mut Work) -> T) -> T {
        let Buffers { yh, ewt, savf, ftem, acor, wm, ipiv } = self.clone();
        let n = ipiv.len();
        let work = Work { yh, ewt, savf, ftem, acor, wm, ipiv, jac: Matrix::zeros(n, n) };
        let mut lent = LentBuffers { buffers: self, work: Some(work) };
        run(lent.work.as_mut().unwrap())
    }
}

struct LentBuffers<'a> {
    buffers: &'a mut Buffers,
    work: Option<Work>,
}

impl Drop for LentBuffers<'_> {
    fn drop(&mut self) {
        *self.buffers = Buffers::of(self.work.take().unwrap());
    }
}

#[derive(Clone, Copy, Debug, PartialEq, Eq)]
pub enum Outcome {
    Converged,
    Retry,
    NoConvergence,
}

/// What one corrector pass answers.
#[derive(Clone, Copy, Debug)]
pub struct Pass {
    pub outcome: Outcome,
    pub m: usize,
    pub del: f64,
}

pub fn cfode(meth: usize, elco: &mut Elco, tesco: &mut Tesco) {
    super::cfode(family(meth), elco, tesco);
}

pub fn ewset(rtol: &Tolerance, atol: &Tolerance, ycur: &[f64], ewt: &mut [f64]) {
    super::ewset(rtol, atol, ycur, ewt);
}

pub fn ewset_scalar_like(ycur: &[f64], ewt: &mut [f64]) {
    super::ewset_scalar_like(ycur, ewt);
}

pub fn invert_weights(ewt: &mut [f64]) -> Result<(), Error> {
    super::invert_weights(ewt)
}

pub fn vmnorm(v: &[f64], w_inv: &[f64]) -> f64 {
    super::vmnorm(v, w_inv)
}

pub fn fnorm_dense(n: usize, a: &[f64], w_inv: &[f64]) -> f64 {
    super::fnorm_dense(n, a, w_inv)
}

pub fn initial_step_size(
    t: f64,
    tout: f64,
    y: &[f64],
    f0: &[f64],
    ewt_inv: &[f64],
    rtol: &Tolerance,
    atol: &Tolerance,
) -> f64 {
    super::initial_step_size(t, tout, y, f0, ewt_inv, rtol, atol)
}

pub fn dense_lu_factor(a: &mut [f64], n: usize, ipiv: &mut [usize]) -> Result<(), ()> {
    super::dense_lu_factor(a, n, ipiv)
}

pub fn dense_lu_solve(a: &[f64], n: usize, ipiv: &[usize], b: &mut [f64]) -> Result<(), ()> {
    super::dense_lu_solve(a, n, ipiv, b)
}

pub fn stoda_first_call_init(state: &mut State) {
    state.with(super::stoda_first_call_init);
}

pub fn stoda_reset(state: &mut State) {
    state.with(super::stoda_reset);
}

pub fn stoda_adjust_step_size(state: &mut State, rh: &mut f64, yh: &mut [f64]) {
    state.with(|common| super::stoda_adjust_step_size(common, rh, yh));
}

pub fn stoda_get_predicted_values(state: &mut State, yh: &mut [f64]) {
    state.with(|common| super::stoda_get_predicted_values(common, yh));
}

pub fn retract_yh(state: &State, yh: &mut [f64]) {
    super::retract_yh(&state.common(), yh);
}

/// The lines of `stoda` that add the correction to the columns.
pub fn correct_columns(state: &State, work: &mut Buffers) {
    work.with(|work| super::correct_columns(&state.common(), work));
}

pub fn stoda_handle_corrector_failure(state: &mut State, work: &mut Buffers, told: f64, ncf: &mut usize) -> bool {
    state.with(|common| work.with(|work| super::stoda_handle_corrector_failure(common, work, told, ncf)))
}

pub fn solsy(rhs: &mut [f64], work: &mut Buffers, state: &mut State) {
    state.with(|common| work.with(|work| super::solsy(rhs, work, common)));
}

pub fn prja<F: FirstOrderSystem>(system: &F, y: &[f64], work: &mut Buffers, state: &mut State) {
    state.with(|common| work.with(|work| super::prja(system, y, work, common)));
}

pub fn stoda_corrector_loop<F: FirstOrderSystem>(
    system: &F,
    y: &mut [f64],
    work: &mut Buffers,
    state: &mut State,
) -> Pass {
    let answer = state.with(|common| work.with(|work| super::stoda_corrector_loop(system, y, work, common)));
    let outcome = match answer.status {
        CorrectorStatus::Converged => Outcome::Converged,
        CorrectorStatus::Retry => Outcome::Retry,
        CorrectorStatus::NoConvergence => Outcome::NoConvergence,
    };
    Pass { outcome, m: answer.m, del: answer.del }
}

/// One step. At the coefficient gap it panics; state and buffers are then left as it had made them.
pub fn stoda<F: FirstOrderSystem>(
    system: &F,
    y: &mut [f64],
    rtol: &Tolerance,
    atol: &Tolerance,
    work: &mut Buffers,
    state: &mut State,
) -> Result<(), Error> {
    state.with(|common| work.with(|work| super::stoda(system, y, rtol, atol, work, common)))
}

pub fn restart_after_modification<F: FirstOrderSystem>(
    system: &F,
    work: &mut Buffers,
    state: &mut State,
) -> Result<(), Error> {
    state.with(|common| work.with(|work| super::restart_after_modification(system, common, work)))
}

pub fn snapshot_step(state: &State, work: &mut Buffers) -> Vec<f64> {
    work.with(|work| super::snapshot_step(&state.common(), work))
}
