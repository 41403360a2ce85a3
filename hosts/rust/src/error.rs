//! What a driver fails with.

use std::convert::Infallible;
use std::error::Error as StdError;
use std::fmt;

use crate::{Finished, Refused};

/// Why a driver did not succeed. `E` is the error of the host's own functions; [`Infallible`] where they cannot fail.
#[derive(Clone, Debug, PartialEq)]
#[non_exhaustive]
pub enum Error<E = Infallible> {
    /// The problem was refused; or, in the midst of a run, which has ended by it:
    ///
    /// * there is no first step that could be computed from the first derivative (11): that derivative is infinite or
    ///   very large, by which the step is 0, or an end of the interval is NaN;
    /// * a weight came to be at most 0 (12);
    /// * a modified pose has another length (14).
    Refused(Refused),
    /// A tolerance is NaN, which the library takes: its state would have no error control. Nothing was asked for.
    NanTolerance {
        /// Which tolerances: "rtol" or "atol".
        list: &'static str,
        /// The entry.
        index: usize,
    },
    /// The run ended early, by its name (112 to 115), or a pose that was handed out is not finite.
    Ended(Finished),
    /// The error of the derivative, the Jacobian or the report, as it was.
    Host(E),
}

impl<E> Error<E> {
    /// The end of the run and its counts, where it ended by name.
    pub fn finished(&self) -> Option<&Finished> {
        match self {
            Error::Ended(finished) => Some(finished),
            _ => None,
        }
    }

    /// The same error in a box, for host errors that `?` takes no further: texts, which are no [`std::error::Error`]s,
    /// and `Box<dyn std::error::Error>`. The host's error is what the box holds; every other is this [`Error`].
    ///
    /// ```
    /// use raimsklo::{solve, Control, Error, Options, Problem};
    ///
    /// fn main() -> Result<(), Box<dyn std::error::Error>> {
    ///     let options = Options::default();
    ///     let problem = Problem { x0: 0.0, xend: 1.0, y0: &[1.0], rtol: &[1e-6], atol: &[1e-9], options };
    ///     let decay = |_: f64, y: &[f64], f: &mut [f64]| {
    ///         f[0] = -y[0];
    ///         if y[0] > 0.0 { Ok(()) } else { Err("the rig is gone") }
    ///     };
    ///     let finished = solve(&problem, decay, |_| Control::Continue).map_err(Error::into_boxed)?;
    ///     println!("{finished}");
    ///     Ok(())
    /// }
    /// ```
    pub fn into_boxed(self) -> Box<dyn StdError>
    where
        E: Into<Box<dyn StdError>>,
    {
        self.not_the_hosts().map_or_else(Into::into, Into::into)
    }

    /// As [`Error::into_boxed`], for functions that return `Box<dyn std::error::Error + Send + Sync>`, and for host
    /// errors in such a box.
    pub fn into_boxed_sync(self) -> Box<dyn StdError + Send + Sync>
    where
        E: Into<Box<dyn StdError + Send + Sync>>,
    {
        self.not_the_hosts().map_or_else(Into::into, Into::into)
    }

    /// The error where it is not the host's; else the host's, as it was.
    fn not_the_hosts(self) -> Result<Error, E> {
        match self {
            Error::Refused(refused) => Ok(Error::Refused(refused)),
            Error::NanTolerance { list, index } => Ok(Error::NanTolerance { list, index }),
            Error::Ended(finished) => Ok(Error::Ended(finished)),
            Error::Host(error) => Err(error),
        }
    }
}

impl<E: fmt::Display> fmt::Display for Error<E> {
    fn fmt(&self, f: &mut fmt::Formatter<'_>) -> fmt::Result {
        match self {
            Error::Refused(refused) => refused.fmt(f),
            Error::NanTolerance { list, index } => write!(f, "{list}[{index}] is NaN"),
            Error::Ended(finished) => finished.fmt(f),
            Error::Host(error) => write!(f, "stopped by the host: {error}"),
        }
    }
}

/// The source is the host's error.
impl<E: StdError + 'static> StdError for Error<E> {
    fn source(&self) -> Option<&(dyn StdError + 'static)> {
        match self {
            Error::Host(error) => Some(error),
            _ => None,
        }
    }
}

impl<E> From<Refused> for Error<E> {
    fn from(refused: Refused) -> Self {
        Error::Refused(refused)
    }
}
