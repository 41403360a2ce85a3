#![doc = include_str!("../README.md")]
#![warn(missing_docs, missing_debug_implementations)]

mod calls;
mod dense;
mod drive;
mod error;
mod finished;
mod refused;
mod solver;
mod step;
mod steps;
mod system;

pub use dense::{Dense, Incomplete};
pub use drive::{solve, solve_dense, steps};
pub use error::Error;
pub use finished::{End, Finished};
pub use refused::{Reason, Refused};
pub use solver::{Question, Solver};
pub use step::{interpolate, Accepted, NoPose, Step};
pub use steps::Steps;
pub use system::{Control, Outcome, Reply, RightSide, System};

/// The options of a run, those of the published `LSODA`. [`Options::default`] has its values.
#[repr(C)]
#[derive(Clone, Copy, Debug, PartialEq)]
pub struct Options {
    /// Largest number of accepted steps; 100,000.
    pub max_steps: usize,
    /// Largest Adams order; 12, above acts as 12.
    pub mxordn: usize,
    /// Largest BDF order; 5, above acts as 5.
    pub mxords: usize,
    /// Largest number of corrector iterations; 3.
    pub maxcor: usize,
    /// Steps between Jacobian checks; 20, 0 acts as 1.
    pub msbp: usize,
    /// Convergence failures in a step that end it; 10, 0 acts as 1.
    pub mxncf: usize,
    banded: usize,
    supplied: usize,
    has_max_step: usize,
    has_min_step: usize,
    has_first_step: usize,
    max_step: f64,
    min_step: f64,
    first_step: f64,
}

impl Default for Options {
    fn default() -> Self {
        // SAFETY: it takes nothing and answers a struct of numbers.
        unsafe { calls::raimsklo_defaults() }
    }
}

macro_rules! settings {
    ($($(#[$told:meta])* $name:ident),*) => {
        /// The settings one after the other: `Options::default().max_steps(5_000).mxncf(3)`. They are fields too.
        impl Options {$(
            $(#[$told])*
            #[must_use]
            pub fn $name(self, $name: usize) -> Self {
                Options { $name, ..self }
            }
        )*}
    };
}

settings! {
    /// Gives the largest number of accepted steps.
    max_steps,
    /// Gives the largest Adams order.
    mxordn,
    /// Gives the largest BDF order.
    mxords,
    /// Gives the largest number of corrector iterations.
    maxcor,
    /// Gives the steps between Jacobian checks.
    msbp,
    /// Gives the convergence failures in a step that end it.
    mxncf
}

impl Options {
    /// Gives the largest step; its sign does not matter. Without one it is the interval; 0 and NaN act as none given.
    #[must_use]
    pub fn max_step(self, h: f64) -> Self {
        Options { has_max_step: 1, max_step: h, ..self }
    }

    /// Gives the smallest step; its sign does not matter. Without one there is none; NaN acts as none given. A run
    /// with one beyond the interval never moves: it has `max_steps` steps of length 0.
    #[must_use]
    pub fn min_step(self, h: f64) -> Self {
        Options { has_min_step: 1, min_step: h, ..self }
    }

    /// Gives the first step, with the sign of `xend - x0`: below 0 where time runs backward. Any other sign, zero and
    /// NaN are refused (11). Without one it is computed from the first derivative.
    #[must_use]
    pub fn first_step(self, h: f64) -> Self {
        Options { has_first_step: 1, first_step: h, ..self }
    }

    /// Has a [`Solver`] ask for the Jacobian, instead of taking it by differences. The drivers take what the
    /// [`System`] says.
    #[must_use]
    pub fn with_jacobian(self) -> Self {
        Options { supplied: 1, ..self }
    }

    /// The largest step, where one was given.
    pub fn given_max_step(&self) -> Option<f64> {
        (self.has_max_step != 0).then_some(self.max_step)
    }

    /// The smallest step, where one was given.
    pub fn given_min_step(&self) -> Option<f64> {
        (self.has_min_step != 0).then_some(self.min_step)
    }

    /// The first step, where one was given.
    pub fn given_first_step(&self) -> Option<f64> {
        (self.has_first_step != 0).then_some(self.first_step)
    }

    /// Whether the Jacobian is asked for.
    pub fn asks_jacobian(&self) -> bool {
        self.supplied != 0
    }

    /// Derivatives that no step of n states asks for more than: (mxncf+12)·maxcor+7, mxncf 0 counting as 1, and n for
    /// each Jacobian where it is taken by differences.
    pub fn cap(&self, n: usize) -> usize {
        let columns = if self.asks_jacobian() { 0 } else { self.jacobian_cap().saturating_mul(n) };
        let passes = self.mxncf.max(1).saturating_add(12);
        passes.saturating_mul(self.maxcor).saturating_add(7).saturating_add(columns)
    }

    /// Jacobians that no step takes more than: mxncf+9, mxncf 0 counting as 1.
    pub fn jacobian_cap(&self) -> usize {
        self.mxncf.max(1).saturating_add(9)
    }
}

/// An initial value problem: y' = f(t, y) from `x0` to `xend`, forward or backward in time.
#[derive(Clone, Copy, Debug)]
pub struct Problem<'a> {
    /// The start's time.
    pub x0: f64,
    /// The end's time. The last step may end past it by a rounding, and derivatives may be asked for there.
    pub xend: f64,
    /// The start's pose, of at most 64 states.
    pub y0: &'a [f64],
    /// Relative tolerances of a step's error, 1 or one for each state. The drivers let no NaN pass; [`Solver::start`]
    /// does, as the library has it, and the error of that state is uncontrolled then.
    pub rtol: &'a [f64],
    /// Absolute tolerances, likewise.
    pub atol: &'a [f64],
    /// The options.
    pub options: Options,
}

// made by tools/record.py: the length of a session
const SESSION: usize = 1448;
// end of the length of a session

/// The root of order k (2 to 13) of x as the solver takes it; NaN for another order.
pub fn root(x: f64, k: usize) -> f64 {
    // SAFETY: it takes two numbers and answers one.
    unsafe { calls::raimsklo_root(x, k) }
}
