//! The drivers: they answer the library's questions from a right side.

use crate::{Accepted, Control, Dense, Error, Finished, Incomplete, Options, Outcome, Problem, Question, Refused};
use crate::{Reply, RightSide, Solver, Step, Steps, System};

impl Problem<'_> {
    /// Runs the problem, with a report after each accepted step.
    ///
    /// `Ok` is a success, or an interrupt that the report asked for, and every pose that was reported is finite then.
    /// An early end (112 to 115) and a run with a pose that is not finite are [`Error::Ended`]. Equal finite ends of
    /// the interval are a success without a step; infinite ones, whose difference is NaN, are refused (11). A tolerance
    /// that is NaN is an error ([`Error::NanTolerance`]) where the library takes the problem.
    ///
    /// Whether the Jacobian is asked for or taken by differences is the system's to say, whatever the options have.
    /// A closure that panics leaves by unwinding: no foreign frame stands between it and the caller.
    pub fn solve<S, V>(&self, system: S, mut report: impl FnMut(&Step) -> V) -> Result<Finished, Error<S::Error>>
    where
        S: System,
        V: Reply<Control, S::Error>,
    {
        let mut run = Run::start(self, system)?;
        loop {
            if let Some(finished) = run.advance()? {
                return finished.checked();
            }
            let control = report(&run.step()).reply().map_err(Error::Host)?;
            run.control(control)?;
        }
    }

    /// Begins a run whose accepted steps are taken one at a time; see [`Steps`]. An error here is a refusal or a
    /// tolerance that is NaN: no derivative was asked for yet.
    pub fn steps<S: System>(&self, system: S) -> Result<Steps<S>, Error<S::Error>> {
        Run::start(self, system).map(Steps::new)
    }

    /// Runs the problem and keeps its steps, for poses at any time of the run. `Ok` is a success, as for
    /// [`Problem::solve`]; every error carries the steps that were accepted before it, see [`Incomplete`].
    pub fn solve_dense<S: System>(&self, system: S) -> Result<(Finished, Dense), Incomplete<S::Error>> {
        let mut steps = vec![];
        let outcome = self.solve(system, |step| {
            steps.push(Accepted::from(*step));
            Control::Continue
        });
        let curve = Dense::new(self.x0, self.y0, steps);
        match outcome {
            Ok(finished) => Ok((finished, curve)),
            Err(error) => Err(Incomplete { error, curve: Box::new(curve) }),
        }
    }

    /// As a driver hands it to the library: the Jacobian as the system has it, and a first step of 1 where the ends of
    /// the interval are equal and finite and none is given. The library would refuse the one that it computes there,
    /// and none is done. Zeros of two signs are equal ends too: the step has the sign that the library sees.
    fn driven(&self, has_jacobian: bool) -> Self {
        let mut options = Options { supplied: usize::from(has_jacobian), ..self.options };
        if self.x0 == self.xend && self.x0.is_finite() && options.given_first_step().is_none() {
            options = options.first_step(1f64.copysign(self.xend - self.x0));
        }
        Problem { options, ..*self }
    }
}

/// [`Problem::solve`] with the derivative alone, the Jacobian by differences.
pub fn solve<R, V>(
    problem: &Problem,
    derivative: impl FnMut(f64, &[f64], &mut [f64]) -> R,
    report: impl FnMut(&Step) -> V,
) -> Result<Finished, Error<R::Error>>
where
    R: Outcome,
    V: Reply<Control, R::Error>,
{
    problem.solve(RightSide::new(derivative), report)
}

/// [`Problem::steps`] with the derivative alone, the Jacobian by differences.
pub fn steps<F, R>(problem: &Problem, derivative: F) -> Result<Steps<RightSide<F>>, Error<R::Error>>
where
    F: FnMut(f64, &[f64], &mut [f64]) -> R,
    R: Outcome,
{
    problem.steps(RightSide::new(derivative))
}

/// [`Problem::solve_dense`] with the derivative alone, the Jacobian by differences.
pub fn solve_dense<R: Outcome>(
    problem: &Problem,
    derivative: impl FnMut(f64, &[f64], &mut [f64]) -> R,
) -> Result<(Finished, Dense), Incomplete<R::Error>> {
    problem.solve_dense(RightSide::new(derivative))
}

/// A run and the right side that answers it.
#[derive(Clone, Debug)]
pub(crate) struct Run<S> {
    solver: Solver,
    system: S,
    reply: Vec<f64>,
    columns: Vec<f64>,
}

impl<S: System> Run<S> {
    fn start(problem: &Problem, system: S) -> Result<Self, Error<S::Error>> {
        let (n, has_jacobian) = (problem.y0.len(), system.has_jacobian());
        let solver = Solver::start(&problem.driven(has_jacobian))?;
        // after the library's own refusals: the lists have their lengths
        for (list, tolerances) in [("rtol", problem.rtol), ("atol", problem.atol)] {
            if let Some(index) = tolerances.iter().position(|tolerance| tolerance.is_nan()) {
                return Err(Error::NanTolerance { list, index });
            }
        }
        let columns = if has_jacobian { n * n } else { 0 };
        Ok(Run { solver, system, reply: vec![0.0; n], columns: vec![0.0; columns] })
    }

    /// Replies until a step is accepted; the end, once the run has ended.
    pub(crate) fn advance(&mut self) -> Result<Option<Finished>, Error<S::Error>> {
        let Run { solver, system, reply, columns } = self;
        loop {
            match solver.question() {
                Question::Derivative { time, y } => {
                    reply.fill(f64::NAN);
                    system.derivative(time, y, reply).map_err(Error::Host)?;
                    solver.derivative(reply)?;
                }
                Question::Jacobian { time, y } => {
                    columns.fill(0.0);
                    system.jacobian(time, y, columns).map_err(Error::Host)?;
                    solver.jacobian(columns)?;
                }
                Question::FirstReport { time, y } => {
                    reply.copy_from_slice(y);
                    solver.go_on(reply, time)?;
                }
                Question::Report(_) => return Ok(None),
                Question::Finished(finished) => return Ok(Some(finished)),
                Question::Refused(refused) => return Err(refused.into()),
            }
        }
    }

    /// Whether a step stands reported and waits for a reply.
    pub(crate) fn reports(&self) -> bool {
        matches!(self.solver.question(), Question::Report(_))
    }

    /// The step that stands reported.
    pub(crate) fn step(&self) -> Step<'_> {
        reported(&self.solver)
    }

    /// Replies to the report.
    pub(crate) fn control(&mut self, control: Control) -> Result<(), Refused> {
        let Run { solver, reply, .. } = self;
        let Step { time, y, .. } = reported(solver);
        if let Control::Modified(y) = control {
            return solver.modified(&y, time);
        }
        reply.copy_from_slice(y);
        if control == Control::Interrupt {
            solver.interrupt(reply, time)
        } else {
            solver.go_on(reply, time)
        }
    }
}

fn reported(solver: &Solver) -> Step<'_> {
    match solver.question() {
        Question::Report(step) => step,
        question => unreachable!("a step was looked for, but: {question}"),
    }
}
