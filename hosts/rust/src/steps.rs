//! The accepted steps of a run, one at a time.

use std::iter::FusedIterator;

use crate::drive::Run;
use crate::{Accepted, Control, Error, Finished, System};

/// The accepted steps of a run, one at a time: each is computed when it is asked for, and a dropped run is over.
///
/// A run that does not succeed has an error as its last item: the host's own, a refusal, or an early end
/// ([`Error::Ended`], which a pose that is not finite makes of a success too). After it, or after the last step, there
/// are none.
///
/// ```
/// use raimsklo::{steps, End, Options, Problem};
///
/// let options = Options::default();
/// let problem = Problem { x0: 0.0, xend: 1.0, y0: &[1.0], rtol: &[1e-6], atol: &[1e-9], options };
/// let mut run = steps(&problem, |_, y, f| f[0] = -y[0])?;
/// for step in &mut run {
///     let step = step?;
///     println!("{} {:?}", step.time, step.y);
/// }
/// assert_eq!(run.finished().unwrap().end, End::Success);
/// # Ok::<(), raimsklo::Error>(())
/// ```
#[derive(Clone, Debug)]
pub struct Steps<S> {
    run: Run<S>,
    finished: Option<Finished>,
    over: bool,
}

impl<S> Steps<S> {
    pub(crate) fn new(run: Run<S>) -> Self {
        Steps { run, finished: None, over: false }
    }

    /// How the run ended and its counts, once it has ended by name.
    pub fn finished(&self) -> Option<Finished> {
        self.finished
    }
}

impl<S: System> Steps<S> {
    /// The next step; `None` once the run has ended well.
    fn advance(&mut self) -> Result<Option<Accepted>, Error<S::Error>> {
        if self.run.reports() {
            self.run.control(Control::Continue)?;
        }
        match self.run.advance()? {
            None => Ok(Some(self.run.step().into())),
            Some(finished) => {
                self.finished = Some(finished);
                finished.checked().map(|_| None)
            }
        }
    }
}

impl<S: System> Iterator for Steps<S> {
    type Item = Result<Accepted, Error<S::Error>>;

    fn next(&mut self) -> Option<Self::Item> {
        if self.over {
            return None;
        }
        let next = self.advance().transpose();
        self.over = !matches!(next, Some(Ok(_)));
        next
    }
}

impl<S: System> FusedIterator for Steps<S> {}
