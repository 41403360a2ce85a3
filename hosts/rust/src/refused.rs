//! Refusals, by the names and numbers of the refusals' table.

use std::fmt;

/// Why a call was refused; `reason as usize` is its number.
#[derive(Clone, Copy, Debug, PartialEq, Eq, Hash)]
#[repr(usize)]
pub enum Reason {
    /// More than 64 states.
    TooManyStates = 1,
    /// A tolerance list is neither 1 long nor as long as y0.
    ToleranceLength = 2,
    /// The length of a buffer is wrong; [`Solver`](crate::Solver) has its own, of the right length.
    BufferLength = 3,
    /// A setting is above 1,000,000.
    SettingTooLarge = 4,
    /// `max_steps` is 0.
    NoSteps = 5,
    /// `maxcor` is 0.
    NoIterations = 6,
    /// `mxordn` or `mxords` is 0.
    NoOrder = 7,
    /// Banded storage is not supported; [`Options`](crate::Options) cannot ask for it.
    Banded = 8,
    /// An entry of rtol is below 0.
    NegativeRelative = 9,
    /// An entry of atol is below 0.
    NegativeAbsolute = 10,
    /// The first step, given or computed, is zero, NaN or leads away from the end. One computed is zero where the first
    /// derivative is infinite or very large; where an end of the interval is NaN, no step leads to the end.
    FirstStep = 11,
    /// The weight rtol·|y|+atol of a state is at most 0.
    Weight = 12,
    /// The session holds a value out of its range; nobody but the library writes that of a
    /// [`Solver`](crate::Solver).
    DamagedSession = 13,
    /// A reply of another kind or length was asked for, or the run has ended.
    Unasked = 14,
    /// The snapshot's header is damaged.
    DamagedSnapshot = 15,
    /// The pose has another length than the snapshot's states.
    PoseLength = 16,
    /// The snapshot's history is too short or its step is zero.
    ShortSnapshot = 17,
}

/// In the order of their numbers, from 1 on.
const REASONS: [Reason; 17] = [
    Reason::TooManyStates,
    Reason::ToleranceLength,
    Reason::BufferLength,
    Reason::SettingTooLarge,
    Reason::NoSteps,
    Reason::NoIterations,
    Reason::NoOrder,
    Reason::Banded,
    Reason::NegativeRelative,
    Reason::NegativeAbsolute,
    Reason::FirstStep,
    Reason::Weight,
    Reason::DamagedSession,
    Reason::Unasked,
    Reason::DamagedSnapshot,
    Reason::PoseLength,
    Reason::ShortSnapshot,
];

const _: () = {
    let mut i = 0;
    while i < REASONS.len() {
        assert!(REASONS[i] as usize == i + 1);
        i += 1;
    }
};

/// A refused call.
///
/// A refused start has begun nothing, and a refused reply has changed nothing: the question stands as it was. But 11
/// and 12 as the answer to a reply have **ended the run**. 12 comes after the first derivative or at the end of an
/// accepted step, before its report; 11 after the first derivative, for the step computed from it. The reply was taken,
/// there is no further question, and every further reply is refused with 14.
#[derive(Clone, Copy, Debug, PartialEq)]
pub struct Refused {
    /// Why.
    pub reason: Reason,
    /// The entry of 9 and 10, the state of 12; else 0.
    pub index: usize,
    /// The step of 11; else 0.
    pub value: f64,
}

impl Refused {
    pub(crate) fn new(number: usize, index: usize, value: f64) -> Self {
        Refused { reason: REASONS[number - 1], index, value }
    }

    /// The number of the refusals' table, 1 to 17.
    pub fn number(&self) -> usize {
        self.reason as usize
    }
}

impl fmt::Display for Refused {
    fn fmt(&self, f: &mut fmt::Formatter<'_>) -> fmt::Result {
        let Refused { reason, index, value } = *self;
        write!(f, "refused ({}): ", self.number())?;
        match reason {
            Reason::TooManyStates => write!(f, "more than 64 states"),
            Reason::ToleranceLength => write!(f, "a tolerance list is neither 1 long nor as long as y0"),
            Reason::BufferLength => write!(f, "the length of a buffer is wrong"),
            Reason::SettingTooLarge => write!(f, "a setting is above 1,000,000"),
            Reason::NoSteps => write!(f, "max_steps is 0"),
            Reason::NoIterations => write!(f, "maxcor is 0"),
            Reason::NoOrder => write!(f, "mxordn or mxords is 0"),
            Reason::Banded => write!(f, "banded storage is not supported"),
            Reason::NegativeRelative => write!(f, "rtol[{index}] is below 0"),
            Reason::NegativeAbsolute => write!(f, "atol[{index}] is below 0"),
            Reason::FirstStep => write!(f, "the first step {value:?} is zero, NaN or leads away from the end"),
            Reason::Weight => write!(f, "the weight rtol*|y|+atol of state {index} is at most 0"),
            Reason::DamagedSession => write!(f, "the session holds a value out of its range"),
            Reason::Unasked => write!(f, "a reply of another kind or length was asked for, or the run has ended"),
            Reason::DamagedSnapshot => write!(f, "the snapshot's header is damaged"),
            Reason::PoseLength => write!(f, "the pose has another length than the snapshot's states"),
            Reason::ShortSnapshot => write!(f, "the snapshot's history is too short or its step is zero"),
        }
    }
}

impl std::error::Error for Refused {}
