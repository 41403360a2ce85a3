//! A run, a question at a time.

use std::fmt;

use crate::calls::{self, Answer};
use crate::{End, Finished, Problem, Reason, Refused, Step, SESSION};

const LARGEST_STATES: usize = 64;

const DERIVATIVE: usize = 1;
const JACOBIAN: usize = 2;
const CONTINUE: usize = 3;
const INTERRUPT: usize = 4;
const MODIFIED: usize = 5;

/// What is wanted next.
#[derive(Clone, Copy, Debug)]
pub enum Question<'a> {
    /// Reply with [`Solver::derivative`].
    Derivative {
        /// The time.
        time: f64,
        /// The state.
        y: &'a [f64],
    },
    /// Reply with [`Solver::jacobian`].
    Jacobian {
        /// The time.
        time: f64,
        /// The state.
        y: &'a [f64],
    },
    /// Before any step. Reply with [`Solver::go_on`], [`Solver::interrupt`] or [`Solver::modified`].
    FirstReport {
        /// The start's time.
        time: f64,
        /// The start's pose.
        y: &'a [f64],
    },
    /// A step was accepted. Reply as to the first report.
    Report(Step<'a>),
    /// Nothing: the run has ended. [`Finished::check`] says whether well.
    Finished(Finished),
    /// Nothing: a refusal (11 or 12) of the last reply has ended the run.
    Refused(Refused),
}

impl fmt::Display for Question<'_> {
    fn fmt(&self, f: &mut fmt::Formatter<'_>) -> fmt::Result {
        match self {
            Question::Derivative { .. } => f.write_str("a derivative is wanted"),
            Question::Jacobian { .. } => f.write_str("a Jacobian is wanted"),
            Question::FirstReport { .. } => f.write_str("first report, before any step"),
            Question::Report(_) => f.write_str("report: a step was accepted"),
            Question::Finished(finished) => finished.fmt(f),
            Question::Refused(refused) => refused.fmt(f),
        }
    }
}

/// A run, a question at a time: for hosts that keep control. It holds the library's buffers, which nobody else writes.
/// A clone goes on by itself from where the original stands.
///
/// ```
/// use raimsklo::{Options, Problem, Question, Solver};
///
/// let options = Options::default();
/// let problem = Problem { x0: 0.0, xend: 1.0, y0: &[1.0], rtol: &[1e-6], atol: &[1e-9], options };
/// let mut run = Solver::start(&problem)?;
/// let finished = loop {
///     match run.question() {
///         Question::Derivative { y, .. } => {
///             let f = [-y[0]];
///             run.derivative(&f)?;
///         }
///         Question::Jacobian { .. } => unreachable!("only after Options::with_jacobian"),
///         Question::FirstReport { time, y } => {
///             let y = y.to_vec();
///             run.go_on(&y, time)?;
///         }
///         Question::Report(step) => {
///             let (y, time) = (step.y.to_vec(), step.time);
///             run.go_on(&y, time)?;
///         }
///         Question::Finished(finished) => break finished.check()?,
///         Question::Refused(refused) => return Err(refused.into()),
///     }
/// };
/// assert_eq!(finished.time, 1.0);
/// # Ok::<(), raimsklo::Error>(())
/// ```
#[derive(Clone, Debug)]
pub struct Solver {
    n: usize,
    work: Vec<f64>,
    pivots: Vec<usize>,
    session: Vec<u8>,
    question: Vec<f64>,
    answer: Answer,
    /// What ended the run, where a refusal did.
    refused: Option<Refused>,
    /// The time of the last report.
    reported: f64,
    nonfinite_at: Option<f64>,
}

impl Solver {
    /// Begins a run; bad input is refused (1 to 11).
    ///
    /// The problem is handed on as it is: where the ends of the interval are equal and no first step is given, the
    /// reply to the first question is refused with 11. The drivers make a success of it where they are finite. A
    /// tolerance that is NaN passes here and leaves the error of its state uncontrolled. The drivers make an error of
    /// it.
    pub fn start(problem: &Problem) -> Result<Solver, Refused> {
        let n = problem.y0.len();
        // more states are refused before a buffer is looked at, and buffers for them need not fit any memory
        let room = if n > LARGEST_STATES { 0 } else { n };
        let (mut work, mut pivots) = (vec![0.0; room * room + 19 * room], vec![0; room]);
        let (mut session, mut question) = (vec![0; SESSION], vec![0.0; 14 * room + 6]);
        // SAFETY: every slice is valid for its length, and the mutable ones overlap no other.
        #[rustfmt::skip]
        let answer = unsafe {
            calls::raimsklo_start(
                problem.x0, problem.xend,
                problem.y0.as_ptr(), n,
                problem.rtol.as_ptr(), problem.rtol.len(),
                problem.atol.as_ptr(), problem.atol.len(),
                problem.options,
                work.as_mut_ptr(), work.len(),
                pivots.as_mut_ptr(), pivots.len(),
                session.as_mut_ptr(), session.len(),
                question.as_mut_ptr(), question.len(),
            )
        };
        let (refused, reported, nonfinite_at) = (None, problem.x0, None);
        let mut solver = Solver { n, work, pivots, session, question, answer, refused, reported, nonfinite_at };
        solver.take(answer)?;
        Ok(solver)
    }

    fn take(&mut self, answer: Answer) -> Result<(), Refused> {
        if answer.number < 100 {
            let refused = Refused::new(answer.number, answer.index, answer.value);
            if matches!(refused.reason, Reason::FirstStep | Reason::Weight) {
                self.refused = Some(refused);
            }
            return Err(refused);
        }
        self.answer = answer;
        if let Question::FirstReport { time, y } | Question::Report(Step { time, y, .. }) = self.question() {
            let finite = y.iter().all(|v| v.is_finite());
            self.reported = time;
            if !finite && self.nonfinite_at.is_none() {
                self.nonfinite_at = Some(time);
            }
        }
        Ok(())
    }

    fn reply(&mut self, kind: usize, numbers: &[f64], time: f64) -> Result<(), Refused> {
        // as the library has it; and a run without states has no session to show it
        if self.ended() {
            return Err(Refused { reason: Reason::Unasked, index: 0, value: 0.0 });
        }
        // SAFETY: every slice is valid for its length, and the mutable ones overlap no other.
        #[rustfmt::skip]
        let answer = unsafe {
            calls::raimsklo_reply(
                kind,
                numbers.as_ptr(), numbers.len(),
                time,
                self.work.as_mut_ptr(), self.work.len(),
                self.pivots.as_mut_ptr(), self.pivots.len(),
                self.session.as_mut_ptr(), self.session.len(),
                self.question.as_mut_ptr(), self.question.len(),
            )
        };
        self.take(answer)
    }

    /// Whether the run has ended, by name or by a refusal (11 or 12) of a reply. Every further reply is refused (14).
    pub fn ended(&self) -> bool {
        self.refused.is_some() || self.answer.number >= End::Success.number()
    }

    /// What the run waits for.
    pub fn question(&self) -> Question<'_> {
        if let Some(refused) = self.refused {
            return Question::Refused(refused);
        }
        let Answer { number, time, previous, count, order, .. } = self.answer;
        let y = &self.question[..self.n];
        match number {
            100 => Question::Derivative { time, y },
            101 => Question::Jacobian { time, y },
            102 => Question::FirstReport { time, y },
            103 => {
                let snapshot = &self.question[self.n..self.n + 6 + (order + 1) * self.n];
                Question::Report(Step { previous, time, y, count, snapshot })
            }
            number => Question::Finished(Finished {
                end: End::of(number),
                time: self.reported,
                nonfinite_at: self.nonfinite_at,
                h: self.answer.h,
                nfe: self.answer.nfe,
                nje: self.answer.nje,
                nlu: self.answer.nlu,
                total: self.answer.total,
                accepted: self.answer.accepted,
                rejected: self.answer.rejected,
            }),
        }
    }

    /// Replies with the derivative at the question's time and state: n numbers, else refused (14).
    pub fn derivative(&mut self, f: &[f64]) -> Result<(), Refused> {
        self.reply(DERIVATIVE, f, 0.0)
    }

    /// Replies with the Jacobian at the question's time and state: n·n numbers, else refused (14), column by column,
    /// df_i/dy_j at `j * n + i`.
    pub fn jacobian(&mut self, columns: &[f64]) -> Result<(), Refused> {
        self.reply(JACOBIAN, columns, 0.0)
    }

    /// Goes on from this pose, of n numbers, else refused (14), and time; those of the report keep the run as it is. At
    /// the first report the time alone counts.
    pub fn go_on(&mut self, y: &[f64], time: f64) -> Result<(), Refused> {
        self.reply(CONTINUE, y, time)
    }

    /// Ends the run at a report; pose and time as for [`Solver::go_on`].
    pub fn interrupt(&mut self, y: &[f64], time: f64) -> Result<(), Refused> {
        self.reply(INTERRUPT, y, time)
    }

    /// Goes on from this pose, of n numbers, else refused (14), at order 1; the time counts at the first report alone.
    pub fn modified(&mut self, y: &[f64], time: f64) -> Result<(), Refused> {
        self.reply(MODIFIED, y, time)
    }
}
