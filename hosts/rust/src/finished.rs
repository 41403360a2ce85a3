//! How a run ended, with its counts.

use std::fmt;

use crate::Error;

/// How a run ended; `end as usize` is its number.
#[derive(Clone, Copy, Debug, PartialEq, Eq, Hash)]
#[repr(usize)]
pub enum End {
    /// The end of the interval was reached.
    Success = 110,
    /// The host interrupted the run in its reply to a report.
    Interrupted = 111,
    /// `max_steps` steps were accepted before the end of the interval.
    NeedsMoreSteps = 112,
    /// The error test failed at the smallest step size, or ten times in a step.
    StepTooSmall = 113,
    /// The corrector did not converge at the smallest step size, or `mxncf` times in a step.
    PoorConvergence = 114,
    /// A step of order 6 or more was accepted in the second family, whose table has no such order.
    CoefficientGap = 115,
}

impl End {
    pub(crate) fn of(number: usize) -> Self {
        match number {
            110 => End::Success,
            111 => End::Interrupted,
            112 => End::NeedsMoreSteps,
            113 => End::StepTooSmall,
            114 => End::PoorConvergence,
            115 => End::CoefficientGap,
            number => unreachable!("no end of a run has the number {number}"),
        }
    }

    /// The number of the end, 110 to 115.
    pub fn number(self) -> usize {
        self as usize
    }

    /// What to try after an early end; empty for success and interrupted.
    pub fn advice(self) -> &'static str {
        match self {
            End::Success | End::Interrupted => "",
            End::NeedsMoreSteps => {
                "raise max_steps, give a first_step, loosen the tolerances, shorten the interval, or look for a pole \
                 of the right side near this time"
            }
            End::StepTooSmall => {
                "loosen the tolerances, lower min_step, or look for a jump or a pole of the right side near this time"
            }
            End::PoorConvergence => {
                "give a Jacobian, raise maxcor or mxncf, lower min_step, or look for a jump or a pole of the right \
                 side near this time"
            }
            End::CoefficientGap => "set mxordn to 5 or less",
        }
    }
}

impl fmt::Display for End {
    fn fmt(&self, f: &mut fmt::Formatter<'_>) -> fmt::Result {
        f.write_str(match self {
            End::Success => "success",
            End::Interrupted => "interrupted",
            End::NeedsMoreSteps => "needs more steps",
            End::StepTooSmall => "step too small",
            End::PoorConvergence => "poor convergence",
            End::CoefficientGap => "coefficient gap",
        })
    }
}

impl std::error::Error for End {}

/// The end of a run, with its counts.
#[derive(Clone, Copy, Debug, PartialEq)]
#[non_exhaustive]
pub struct Finished {
    /// How it ended.
    pub end: End,
    /// The time of the last report, the start's if no step was accepted: so far the poses go. After a success it may
    /// be past [`Problem::xend`](crate::Problem::xend) by a rounding.
    pub time: f64,
    /// The first time at which a pose that was handed out, the start's included, has a NaN or an infinity.
    pub nonfinite_at: Option<f64>,
    /// The size at which the next step would have been tried.
    pub h: f64,
    /// Derivatives, those of difference Jacobians included.
    pub nfe: usize,
    /// Jacobians.
    pub nje: usize,
    /// Factorings of the iteration's matrix, but for those that found it singular.
    pub nlu: usize,
    /// Steps, accepted and rejected, as counted at the last accepted one.
    pub total: usize,
    /// Accepted steps.
    pub accepted: usize,
    /// Rejected attempts at a step.
    pub rejected: usize,
}

impl Finished {
    /// Whether the run came to the end of the interval, or to where the host interrupted it, by finite poses alone.
    pub fn is_ok(&self) -> bool {
        matches!(self.end, End::Success | End::Interrupted) && self.nonfinite_at.is_none()
    }

    /// The drivers' rule, for those who drive a [`Solver`](crate::Solver) themselves: an early end, or one with a pose
    /// that is not finite, is an error.
    pub fn check(self) -> Result<Finished, Error> {
        self.checked()
    }

    pub(crate) fn checked<E>(self) -> Result<Finished, Error<E>> {
        if self.is_ok() {
            Ok(self)
        } else {
            Err(Error::Ended(self))
        }
    }
}

/// The end in words; after an early one the advice, with the time that it speaks of.
impl fmt::Display for Finished {
    fn fmt(&self, f: &mut fmt::Formatter<'_>) -> fmt::Result {
        write!(f, "{}", self.end)?;
        let advice = self.end.advice();
        if !advice.is_empty() {
            write!(f, ": {advice} (the last pose is at time {:?})", self.time)?;
        }
        if let Some(time) = self.nonfinite_at {
            let but = if advice.is_empty() { ", but" } else { ";" };
            write!(f, "{but} the pose at time {time:?} is not finite")?;
        }
        Ok(())
    }
}

#[cfg(test)]
mod tests {
    use super::End;

    #[test]
    fn an_end_has_the_number_that_it_is_made_of() {
        // the last of them comes in no whole run that is known
        for number in 110..=115 {
            assert_eq!(End::of(number).number(), number);
        }
        assert!(std::panic::catch_unwind(|| End::of(116)).is_err());
    }
}
