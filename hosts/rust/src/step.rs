//! An accepted step, and poses between its ends.

use std::fmt;

use crate::{calls, Refused};

/// An accepted step, as its report has it.
#[derive(Clone, Copy, Debug)]
#[non_exhaustive]
pub struct Step<'a> {
    /// The time at which it began.
    pub previous: f64,
    /// The time at which it ended.
    pub time: f64,
    /// The pose at its end.
    pub y: &'a [f64],
    /// Derivatives requested in this step.
    pub count: usize,
    /// What [`interpolate`] takes.
    pub snapshot: &'a [f64],
}

impl Step<'_> {
    /// The pose at a time of this step, its ends included. A time outside, or a NaN, is an error: beyond its ends a
    /// step says nothing about the solution.
    ///
    /// At the step's end it is `y` itself. At its beginning it is the interpolation's, not the pose that the step began
    /// from: they may differ by a rounding (of the time too, which counts where the pose is steep), and by up to a
    /// step's error where the order has changed. Take the pose reported before where that one is meant.
    pub fn at(&self, time: f64) -> Result<Vec<f64>, NoPose> {
        let Step { previous, time: end, .. } = *self;
        // not left to the interpolation: it refuses a step of length 0, and is NaN where the time is infinite
        if time == end {
            return Ok(self.y.to_vec());
        }
        if !(previous <= time && time <= end || end <= time && time <= previous) {
            return Err(NoPose::OutsideStep { time, previous, end });
        }
        let mut pose = vec![f64::NAN; self.y.len()];
        interpolate(time, &mut pose, self.snapshot).map_err(NoPose::Refused)?;
        Ok(pose)
    }
}

/// An accepted step that outlives its report.
#[derive(Clone, Debug, PartialEq)]
#[non_exhaustive]
pub struct Accepted {
    /// The time at which it began.
    pub previous: f64,
    /// The time at which it ended.
    pub time: f64,
    /// The pose at its end.
    pub y: Vec<f64>,
    /// Derivatives requested in this step.
    pub count: usize,
    /// What [`interpolate`] takes.
    pub snapshot: Vec<f64>,
}

impl Accepted {
    /// The step, borrowed.
    pub fn as_step(&self) -> Step<'_> {
        let Accepted { previous, time, ref y, count, ref snapshot } = *self;
        Step { previous, time, y, count, snapshot }
    }

    /// As [`Step::at`]: `y` at the step's end, the interpolation at its beginning.
    pub fn at(&self, time: f64) -> Result<Vec<f64>, NoPose> {
        self.as_step().at(time)
    }
}

impl From<Step<'_>> for Accepted {
    fn from(step: Step) -> Self {
        let Step { previous, time, y, count, snapshot } = step;
        Accepted { previous, time, y: y.to_vec(), count, snapshot: snapshot.to_vec() }
    }
}

/// Why a step has no pose at a time.
#[derive(Clone, Copy, Debug, PartialEq)]
#[non_exhaustive]
pub enum NoPose {
    /// The time is not one of the step's.
    OutsideStep {
        /// The time that was asked for.
        time: f64,
        /// Where the step begins.
        previous: f64,
        /// Where the step ends.
        end: f64,
    },
    /// The library refused the step's snapshot.
    Refused(Refused),
}

impl fmt::Display for NoPose {
    fn fmt(&self, f: &mut fmt::Formatter<'_>) -> fmt::Result {
        match self {
            NoPose::OutsideStep { time, previous, end } => {
                write!(f, "time {time:?} is outside the step from {previous:?} to {end:?}")
            }
            NoPose::Refused(refused) => refused.fmt(f),
        }
    }
}

impl std::error::Error for NoPose {}

/// The pose at a time from a step's snapshot, as the library has it: beyond the step's ends the polynomial goes on
/// without a word, and a pose as long as the snapshot gets the snapshot itself. [`Step::at`] refuses such times.
/// A refusal (15, 16, 17) leaves the pose as it was.
pub fn interpolate(time: f64, pose: &mut [f64], snapshot: &[f64]) -> Result<(), Refused> {
    // SAFETY: both slices are valid for their lengths, and a mutable one overlaps no other.
    let number =
        unsafe { calls::raimsklo_interpolate(time, pose.as_mut_ptr(), pose.len(), snapshot.as_ptr(), snapshot.len()) };
    match number {
        0 => Ok(()),
        number => Err(Refused::new(number, 0, 0.0)),
    }
}
