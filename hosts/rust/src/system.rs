//! The right side of y' = f(t, y): its derivative and, where it has one, its Jacobian.

use std::convert::Infallible;

/// A right side: a derivative, and a Jacobian where there is one. [`RightSide`] makes one of closures; implement it for
/// a type of your own where derivative and Jacobian share what they work on.
pub trait System {
    /// What its functions can fail with; [`Infallible`] for nothing.
    type Error;

    /// Writes f(time, y) to `f`, which holds NaN before: an entry that is forgotten shows as a pose that is not finite.
    /// An error stops the run and comes back as it was.
    fn derivative(&mut self, time: f64, y: &[f64], f: &mut [f64]) -> Result<(), Self::Error>;

    /// Whether there is a Jacobian. Where not, it is taken by differences of the derivative.
    fn has_jacobian(&self) -> bool {
        false
    }

    /// Writes the Jacobian at (time, y) to `columns`, column by column: df_i/dy_j at `j * n + i`. It holds 0 before:
    /// what is not written is a zero entry. Asked for only where [`System::has_jacobian`] says that it is there.
    fn jacobian(&mut self, time: f64, y: &[f64], columns: &mut [f64]) -> Result<(), Self::Error> {
        let _ = (time, y, columns);
        unimplemented!("this System says that it has a Jacobian")
    }
}

macro_rules! handed_on {
    ($($holder:ty),*) => {$(
        impl<S: System + ?Sized> System for $holder {
            type Error = S::Error;

            fn derivative(&mut self, time: f64, y: &[f64], f: &mut [f64]) -> Result<(), S::Error> {
                (**self).derivative(time, y, f)
            }

            fn has_jacobian(&self) -> bool {
                (**self).has_jacobian()
            }

            fn jacobian(&mut self, time: f64, y: &[f64], columns: &mut [f64]) -> Result<(), S::Error> {
                (**self).jacobian(time, y, columns)
            }
        }
    )*};
}

handed_on!(&mut S, Box<S>);

/// A right side made of closures, which can fail or not.
///
/// ```
/// use raimsklo::{Options, Problem, RightSide};
///
/// let options = Options::default();
/// let problem = Problem { x0: 0.0, xend: 1.0, y0: &[1.0], rtol: &[1e-6], atol: &[1e-9], options };
/// let decay = RightSide::new(|_, y, f| f[0] = -1e4 * y[0]).jacobian(|_, _, columns| columns[0] = -1e4);
/// let (finished, curve) = problem.solve_dense(decay)?;
/// assert!(finished.nje > 0 && curve.at(0.5).is_some());
/// # Ok::<(), raimsklo::Error>(())
/// ```
#[derive(Clone, Copy, Debug)]
pub struct RightSide<D, J = fn(f64, &[f64], &mut [f64])> {
    derivative: D,
    jacobian: Option<J>,
}

impl<D, R> RightSide<D>
where
    D: FnMut(f64, &[f64], &mut [f64]) -> R,
    R: Outcome,
{
    /// With the derivative alone: the Jacobian is taken by differences. See [`System::derivative`].
    pub fn new(derivative: D) -> Self {
        RightSide { derivative, jacobian: None }
    }

    /// With a Jacobian too: n·n numbers, column by column. See [`System::jacobian`].
    pub fn jacobian<J, Q>(self, jacobian: J) -> RightSide<D, J>
    where
        J: FnMut(f64, &[f64], &mut [f64]) -> Q,
        Q: Reply<(), R::Error>,
    {
        RightSide { derivative: self.derivative, jacobian: Some(jacobian) }
    }
}

impl<D, J, R, Q> System for RightSide<D, J>
where
    D: FnMut(f64, &[f64], &mut [f64]) -> R,
    R: Outcome,
    J: FnMut(f64, &[f64], &mut [f64]) -> Q,
    Q: Reply<(), R::Error>,
{
    type Error = R::Error;

    fn derivative(&mut self, time: f64, y: &[f64], f: &mut [f64]) -> Result<(), R::Error> {
        (self.derivative)(time, y, f).outcome()
    }

    fn has_jacobian(&self) -> bool {
        self.jacobian.is_some()
    }

    fn jacobian(&mut self, time: f64, y: &[f64], columns: &mut [f64]) -> Result<(), R::Error> {
        let jacobian = self.jacobian.as_mut().expect("asked for only where it is there");
        jacobian(time, y, columns).reply()
    }
}

/// What the host says to a report.
#[derive(Clone, Debug, PartialEq)]
#[must_use]
pub enum Control {
    /// Go on from the pose that was reported.
    Continue,
    /// End the run here; the driver returns [`End::Interrupted`](crate::End::Interrupted).
    Interrupt,
    /// Go on from another pose, at order 1: of n numbers, else refused (14), which ends the run of a driver.
    Modified(Vec<f64>),
}

mod sealed {
    pub trait Sealed {}
    impl Sealed for () {}
    impl Sealed for super::Control {}
    impl<T, E> Sealed for Result<T, E> {}
}

/// What a derivative may return: nothing, or `Result<(), E>`. Its type names the error `E` of the whole run, so where
/// only the Jacobian or the report can fail, the derivative ends in `Ok(())`.
#[diagnostic::on_unimplemented(message = "a derivative returns `()` or `Result<(), E>`, not `{Self}`")]
pub trait Outcome: sealed::Sealed {
    /// What it can fail with.
    type Error;

    /// As a result.
    fn outcome(self) -> Result<(), Self::Error>;
}

impl Outcome for () {
    type Error = Infallible;

    fn outcome(self) -> Result<(), Infallible> {
        Ok(())
    }
}

impl<E> Outcome for Result<(), E> {
    type Error = E;

    fn outcome(self) -> Self {
        self
    }
}

/// What a Jacobian (`T` is `()`) or a report (`T` is [`Control`]) may return: `T`, or `Result<T, E>`, `E` being the
/// error that the derivative's return type names.
#[diagnostic::on_unimplemented(
    message = "this closure returns `{T}` or `Result<{T}, {E}>`, not `{Self}`",
    note = "the derivative's return type names the error: let it end in `Ok(())` where only this closure can fail"
)]
pub trait Reply<T, E>: sealed::Sealed {
    /// As a result.
    fn reply(self) -> Result<T, E>;
}

impl<E> Reply<(), E> for () {
    fn reply(self) -> Result<(), E> {
        Ok(())
    }
}

impl<E> Reply<(), E> for Result<(), E> {
    fn reply(self) -> Self {
        self
    }
}

impl<E> Reply<Control, E> for Control {
    fn reply(self) -> Result<Control, E> {
        Ok(self)
    }
}

impl<E> Reply<Control, E> for Result<Control, E> {
    fn reply(self) -> Self {
        self
    }
}
