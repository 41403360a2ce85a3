//! The solution at and between its accepted steps.

use std::fmt;

use crate::{Accepted, Error};

/// The solution at and between its accepted steps.
#[derive(Clone, Debug)]
pub struct Dense {
    x0: f64,
    y0: Vec<f64>,
    steps: Vec<Accepted>,
}

impl Dense {
    pub(crate) fn new(x0: f64, y0: &[f64], steps: Vec<Accepted>) -> Self {
        Dense { x0, y0: y0.to_vec(), steps }
    }

    /// The times of the poses that there are: from the start to the last accepted step.
    pub fn span(&self) -> (f64, f64) {
        (self.x0, self.steps.last().map_or(self.x0, |step| step.time))
    }

    /// The accepted steps.
    pub fn steps(&self) -> &[Accepted] {
        &self.steps
    }

    /// The pose at a time; `None` beyond the accepted steps, where there is none. At the start it is always `y0`, at
    /// the end of a step the pose that was reported there: of several steps that end at one time, as steps do that are
    /// too small to move it, the first's. The last of all is that of `steps().last()`.
    pub fn at(&self, time: f64) -> Option<Vec<f64>> {
        if time == self.x0 {
            return Some(self.y0.clone());
        }
        let (from, to) = self.span();
        let backward = to < from;
        let before = |step: &Accepted| if backward { time < step.time } else { step.time < time };
        self.steps.get(self.steps.partition_point(before))?.at(time).ok()
    }
}

/// Why [`solve_dense`](crate::solve_dense) did not succeed, with the curve of the steps that were accepted before: they
/// are not lost with the run. `?` makes the [`Error`] alone of it where a function returns that.
///
/// ```
/// use raimsklo::{solve_dense, Options, Problem};
///
/// let mut options = Options::default();
/// options.max_steps = 3;
/// let problem = Problem { x0: 0.0, xend: 1.0, y0: &[1.0], rtol: &[1e-6], atol: &[1e-9], options };
/// let cut = solve_dense(&problem, |_, y, f| f[0] = -y[0]).unwrap_err();
/// let (_, last) = cut.curve.span();
/// assert!(last < 1.0 && cut.curve.at(last).is_some());
/// assert!(cut.to_string().starts_with("needs more steps: raise max_steps"));
/// ```
#[derive(Clone, Debug)]
pub struct Incomplete<E = std::convert::Infallible> {
    /// Why.
    pub error: Error<E>,
    /// The start and the steps accepted before.
    pub curve: Box<Dense>,
}

impl<E> Incomplete<E> {
    /// As [`Error::into_boxed`]; the curve is dropped.
    ///
    /// ```
    /// use raimsklo::{solve_dense, Incomplete, Options, Problem};
    ///
    /// fn main() -> Result<(), Box<dyn std::error::Error>> {
    ///     let options = Options::default();
    ///     let problem = Problem { x0: 0.0, xend: 1.0, y0: &[1.0], rtol: &[1e-6], atol: &[1e-9], options };
    ///     let decay = |_: f64, y: &[f64], f: &mut [f64]| {
    ///         f[0] = -y[0];
    ///         if y[0] > 0.0 { Ok(()) } else { Err("the rig is gone") }
    ///     };
    ///     let (_, curve) = solve_dense(&problem, decay).map_err(Incomplete::into_boxed)?;
    ///     println!("{:?}", curve.at(0.5));
    ///     Ok(())
    /// }
    /// ```
    pub fn into_boxed(self) -> Box<dyn std::error::Error>
    where
        E: Into<Box<dyn std::error::Error>>,
    {
        self.error.into_boxed()
    }

    /// As [`Error::into_boxed_sync`]; the curve is dropped.
    pub fn into_boxed_sync(self) -> Box<dyn std::error::Error + Send + Sync>
    where
        E: Into<Box<dyn std::error::Error + Send + Sync>>,
    {
        self.error.into_boxed_sync()
    }
}

impl<E: fmt::Display> fmt::Display for Incomplete<E> {
    fn fmt(&self, f: &mut fmt::Formatter<'_>) -> fmt::Result {
        self.error.fmt(f)
    }
}

impl<E: std::error::Error + 'static> std::error::Error for Incomplete<E> {
    fn source(&self) -> Option<&(dyn std::error::Error + 'static)> {
        self.error.source()
    }
}

impl<E> From<Incomplete<E>> for Error<E> {
    fn from(incomplete: Incomplete<E>) -> Self {
        incomplete.error
    }
}
