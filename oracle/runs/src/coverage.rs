//! How many runs reached what, seen from the session's bytes before and after each call.

use crate::calls::{Lent, Reply, kind, number};
use crate::ours::{Given, is_end};
use crate::session::{Field, ICOUNT, PHASES, count, float, phase};
use reference::reach::{self, SM1};
use std::collections::{BTreeMap, BTreeSet};
use std::fmt;
use std::sync::LazyLock;

/// How an accepted step ended, as crates/acceptance/src/order.rt names it.
#[derive(Clone, Copy, Debug, PartialEq, Eq, PartialOrd, Ord)]
pub enum Branch {
    Unchanged,
    SmallGain,
    Lowered,
    Kept,
    Raised,
    HeldBySm1,
    FamilyChanged,
    CoefficientGap,
}

use Branch::*;

#[derive(Clone, Copy, Debug, PartialEq, Eq, PartialOrd, Ord)]
pub enum Row {
    Phase(u64),
    RefusedAtStart(usize),
    FirstReportAnswered(usize),
    ReportAnswered(usize),
    FirstStepCut,
    CutAfterModified,
    OtherStepCut,
    JacobianSingular { supplied: bool },
    Retry,
    ZeroDiagonal,
    NoConvergence(u64),
    LatePass,
    ErrorFailure { family: u64, number: u64 },
    Accepted { family: u64, order: u64 },
    AcceptedAboveOrder,
    EntersOnOldFactoring,
    LargeInBdf,
    Choice { family: u64, branch: Branch },
    LoweredToMxords,
    LoweredToMxordn,
    WeightRefusedAtStepEnd,
    End(usize),
}

/// Rows that no run and no crafted step can reach: the gap is in the second family, the first alone is held by SM1.
const IMPOSSIBLE: [Row; 2] =
    [Row::Choice { family: 1, branch: CoefficientGap }, Row::Choice { family: 2, branch: HeldBySm1 }];

/// Rows that whole runs must reach: a crafted step has an icount and a Jacobian of any age without a run behind it.
const IN_RUNS: [Row; 1] = [Row::EntersOnOldFactoring];

impl Row {
    fn all() -> Vec<Row> {
        let branches = [Unchanged, SmallGain, Lowered, Kept, Raised, HeldBySm1, FamilyChanged, CoefficientGap];
        let mut all: Vec<Row> = (0..PHASES.len() as u64).map(Row::Phase).collect();
        all.extend((4..=11).map(Row::RefusedAtStart));
        for kind in [kind::CONTINUE, kind::INTERRUPT, kind::MODIFIED] {
            all.extend([Row::FirstReportAnswered(kind), Row::ReportAnswered(kind)]);
        }
        all.extend([Row::FirstStepCut, Row::CutAfterModified, Row::OtherStepCut]);
        all.extend([false, true].map(|supplied| Row::JacobianSingular { supplied }));
        all.extend([Row::Retry, Row::ZeroDiagonal, Row::AcceptedAboveOrder, Row::EntersOnOldFactoring]);
        all.extend([Row::LoweredToMxords, Row::LoweredToMxordn, Row::WeightRefusedAtStepEnd]);
        all.extend([Row::LatePass, Row::LargeInBdf]);
        all.extend((1..=12).map(Row::NoConvergence));
        for family in [1, 2] {
            all.extend((1..=10).map(|number| Row::ErrorFailure { family, number }));
            all.extend((1..=12).map(|order| Row::Accepted { family, order }));
            all.extend(branches.map(|branch| Row::Choice { family, branch }));
        }
        all.extend([11, 12].map(Row::End));
        all.extend((number::SUCCESS..=number::GAP).map(Row::End));
        all.retain(|row| !IMPOSSIBLE.contains(row));
        all.sort();
        all
    }
}

impl fmt::Display for Row {
    fn fmt(&self, f: &mut fmt::Formatter<'_>) -> fmt::Result {
        let family = |family: u64| if family == 1 { "Adams" } else { "BDF" };
        let answer = |kind: usize| ["continue", "interrupt", "modified"][kind - kind::CONTINUE];
        match *self {
            Row::Phase(number) => write!(f, "phase {}", PHASES[number as usize]),
            Row::RefusedAtStart(number) => write!(f, "{number} at the start"),
            Row::FirstReportAnswered(kind) => write!(f, "first report answered {}", answer(kind)),
            Row::ReportAnswered(kind) => write!(f, "report answered {}", answer(kind)),
            Row::FirstStepCut => write!(f, "first step cut by the interval's end"),
            Row::CutAfterModified => write!(f, "step after modified cut"),
            Row::OtherStepCut => write!(f, "another step cut"),
            Row::JacobianSingular { supplied: true } => write!(f, "singular factor, supplied"),
            Row::JacobianSingular { supplied: false } => write!(f, "singular factor, by differences"),
            Row::Retry => write!(f, "retry"),
            Row::ZeroDiagonal => write!(f, "retry at a zero diagonal in the solve"),
            Row::NoConvergence(number) => write!(f, "no convergence, pass {number} of a step"),
            Row::LatePass => write!(f, "more than 8 iterations in a pass"),
            Row::LargeInBdf => write!(f, "BDF, accepted with 60 states or more"),
            Row::ErrorFailure { family: of, number } => write!(f, "{}, error failure -{number}", family(of)),
            Row::Accepted { family: of, order } => write!(f, "{}, accepted at order {order}", family(of)),
            Row::AcceptedAboveOrder => write!(f, "accepted with nqnyh above nq·n"),
            Row::EntersOnOldFactoring => write!(f, "BDF entered on an old factoring"),
            Row::Choice { family: of, branch } => write!(f, "{}, {branch:?}", family(of)),
            Row::LoweredToMxords => write!(f, "to BDF with the order lowered to mxords"),
            Row::LoweredToMxordn => write!(f, "to Adams with the order lowered to mxordn"),
            Row::WeightRefusedAtStepEnd => write!(f, "12 at a step's end"),
            Row::End(11) => write!(f, "11 after the first derivative"),
            Row::End(12) => write!(f, "12, anywhere"),
            Row::End(number) => {
                let names = ["success", "interrupted", "needs more steps", "too small", "poor", "coefficient gap"];
                write!(f, "ended {}", names[number - number::SUCCESS])
            }
        }
    }
}

/// Runs that reached each row: whole runs, and crafted steps.
#[derive(Default)]
pub struct Coverage(BTreeMap<Row, [u64; 2]>);

#[derive(Clone, Copy)]
pub enum Column {
    Whole,
    Crafted,
}

impl Coverage {
    pub fn add(&mut self, column: Column, watch: Watch) {
        for row in watch.reached {
            self.0.entry(row).or_default()[column as usize] += 1;
        }
    }

    /// How many runs and how many steps reached a row, and whether that is too little.
    fn reached(&self, row: Row) -> ([u64; 2], bool) {
        let [runs, steps] = self.0.get(&row).copied().unwrap_or_default();
        ([runs, steps], runs + steps == 0 || (runs == 0 && IN_RUNS.contains(&row)))
    }

    /// How many rows there are, and how many of them are empty.
    pub fn rows(&self) -> (usize, usize) {
        let all = Row::all();
        (all.len(), all.iter().filter(|&&row| self.reached(row).1).count())
    }

    pub fn print(&self) {
        println!("{:<48} {:>10} {:>10}", "reached by", "runs", "steps");
        for row in Row::all() {
            let ([runs, steps], empty) = self.reached(row);
            let remark = if empty { "   EMPTY" } else { "" };
            println!("{:<48} {runs:>10} {steps:>10}{remark}", row.to_string());
        }
    }
}

/// One run under way.
#[derive(Default)]
pub struct Watch {
    pub reached: BTreeSet<Row>,
    session: Vec<u8>,
    weights: Vec<f64>,
}

/// The coefficients of the error test in force.
static TESCO: LazyLock<reach::Tesco> = LazyLock::new(|| {
    let (mut elco, mut tesco) = ([0.0; 156], [0.0; 36]);
    reach::cfode(1, &mut elco, &mut tesco);
    tesco
});

impl Watch {
    pub fn start(&mut self, reply: &Reply) {
        if reply.number < number::DERIVATIVE {
            self.reached.insert(Row::RefusedAtStart(reply.number));
        } else if reply.number == number::DERIVATIVE {
            self.reached.insert(Row::Phase(phase::FIRST_DERIVATIVE));
        }
    }

    /// Keeps what the call may overwrite.
    pub fn before(&mut self, lent: &Lent, n: usize) {
        self.session.clone_from(&lent.session);
        self.weights.clear();
        self.weights.extend_from_slice(&lent.work[13 * n..14 * n]);
    }

    fn was(&self, field: Field) -> u64 {
        count(&self.session, field)
    }

    pub fn after(&mut self, given: &Given, reply: &Reply, lent: &Lent, n: usize) {
        let is = |field| count(&lent.session, field);
        let from = self.was(Field::phase);
        self.reached.insert(Row::Phase(is(Field::phase)));
        match from {
            phase::FIRST_REPORT => _ = self.reached.insert(Row::FirstReportAnswered(given.kind)),
            phase::REPORT => _ = self.reached.insert(Row::ReportAnswered(given.kind)),
            _ => {}
        }
        if is(Field::phase) == phase::OPENED {
            self.opened(from, given, is(Field::rejected));
        }
        let last_column = from == phase::DIFFERENCE_COLUMN && self.was(Field::column) + 1 == n as u64;
        if (from == phase::JACOBIAN_ASKED || last_column) && is(Field::nlu) == self.was(Field::nlu) {
            self.reached.insert(Row::JacobianSingular { supplied: from == phase::JACOBIAN_ASKED });
        }
        if from == phase::OPENED && self.enters_on_old_factoring() {
            self.reached.insert(Row::EntersOnOldFactoring);
        }
        if is(Field::ncf) > self.was(Field::ncf) {
            self.reached.insert(Row::NoConvergence(is(Field::ncf)));
        }
        if from == phase::FURTHER_DERIVATIVE && is(Field::m) > 8 {
            self.reached.insert(Row::LatePass);
        }
        if is(Field::kflag) > self.was(Field::kflag) {
            let family = self.was(Field::meth);
            self.reached.insert(Row::ErrorFailure { family, number: is(Field::kflag) });
        }
        if is(Field::nst) > self.was(Field::nst) {
            self.accepted(reply, lent, n);
        }
        if is_end(reply.number) {
            self.reached.insert(Row::End(reply.number));
        }
    }

    /// Whether the pass under way is of the first step since a change to BDF, which alone has the full icount there,
    /// and goes on with the matrix of the last time in BDF: none is due, and none was made in this step.
    fn enters_on_old_factoring(&self) -> bool {
        let entered = self.was(Field::meth) == 2 && self.was(Field::icount) == ICOUNT + 20;
        entered && self.was(Field::due) == 0 && self.was(Field::nslp) < self.was(Field::nst)
    }

    /// A pass opens: of a new step, or again.
    fn opened(&mut self, from: u64, given: &Given, rejected: u64) {
        let time = match from {
            phase::FIRST_REPORT | phase::REPORT => given.time,
            _ => float(&self.session, Field::tn),
        };
        let cut = float(&self.session, Field::h).abs() > (float(&self.session, Field::xend) - time).abs();
        let again = rejected == self.was(Field::rejected);
        match from {
            phase::FIRST_REPORT | phase::FIRST_MODIFIED if cut => _ = self.reached.insert(Row::FirstStepCut),
            phase::MODIFIED if cut => _ = self.reached.insert(Row::CutAfterModified),
            phase::REPORT if cut => _ = self.reached.insert(Row::OtherStepCut),
            phase::OPENED | phase::FURTHER_DERIVATIVE if again => {
                self.reached.insert(Row::Retry);
                // At its first iteration of several a pass retries for nothing else.
                if from == phase::OPENED && self.was(Field::maxcor) > 1 {
                    self.reached.insert(Row::ZeroDiagonal);
                }
            }
            _ => {}
        }
    }

    fn accepted(&mut self, reply: &Reply, lent: &Lent, n: usize) {
        let family = self.was(Field::meth);
        let order = self.was(Field::nq);
        self.reached.insert(Row::Accepted { family, order });
        if family == 2 && n >= 60 {
            self.reached.insert(Row::LargeInBdf);
        }
        if self.was(Field::nqnyh) > order * n as u64 {
            self.reached.insert(Row::AcceptedAboveOrder);
        }
        let branch = self.branch(reply, lent, n);
        self.reached.insert(Row::Choice { family, branch });
        if branch == FamilyChanged && count(&lent.session, Field::nq) < order {
            self.reached.insert(if family == 1 { Row::LoweredToMxords } else { Row::LoweredToMxordn });
        }
        if reply.number == 12 {
            self.reached.insert(Row::WeightRefusedAtStepEnd);
        }
    }

    fn branch(&self, reply: &Reply, lent: &Lent, n: usize) -> Branch {
        let is = |field| count(&lent.session, field);
        if reply.number == number::GAP {
            CoefficientGap
        } else if is(Field::meth) != self.was(Field::meth) {
            FamilyChanged
        } else if self.was(Field::ialth) > 1 {
            Unchanged
        } else if is(Field::nq) > self.was(Field::nq) {
            Raised
        } else if is(Field::nq) < self.was(Field::nq) {
            Lowered
        } else if is(Field::ialth) != 3 || is(Field::h) != self.was(Field::h) {
            Kept
        } else if is(Field::meth) == 1 && is(Field::table) == 1 && self.is_held(lent, n) {
            HeldBySm1
        } else {
            SmallGain
        }
    }

    /// Whether a choice that changed nothing was held by SM1. It is computed anew from what the step left, so in the
    /// last bits it may be another: it names the row, and decides no comparison.
    fn is_held(&self, lent: &Lent, n: usize) -> bool {
        let order = count(&lent.session, Field::nq) as usize;
        let lmax = count(&lent.session, Field::lmax) as usize;
        let step = float(&lent.session, Field::h).abs();
        let pdh = (step * float(&lent.session, Field::pdlast)).max(1.0e-6);
        let norm = |at: usize| reach::vmnorm(&lent.work[at..at + n], &self.weights);
        let size = |a: f64, error: f64, k: usize| 1.0 / (a * error.powf(1.0 / k as f64) + a * 1.0e-6);
        let tesco = |i: usize| TESCO[i + 3 * (order - 1)];
        let same = size(1.2, norm(16 * n), order + 1).min(SM1[order - 1] / pdh);
        let (mut up, mut down) = (0.0, 0.0);
        if order + 1 < lmax {
            up = size(1.4, norm(14 * n) / tesco(2), order + 2).min(SM1[order] / pdh);
        }
        if order > 1 {
            down = size(1.3, norm(order * n) / tesco(0), order).min(SM1[order - 2] / pdh);
        }
        let (newq, rh) = if same >= up && same >= down {
            (order, same)
        } else if up > down {
            (order + 1, up)
        } else {
            (order - 1, down)
        };
        (newq <= order || rh >= 1.1) && newq > 0 && rh * pdh * 1.00001 >= SM1[newq - 1]
    }
}
