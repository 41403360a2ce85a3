//! The coefficients: our accessors against what `cfode` and the first call's setup compute.

use crate::ours;
use crate::report::{Report, Tally};
use reference::reach::{self, Elco, SM1, State, Tesco};

pub const ORDERS: usize = 12;
pub const BDF_ORDERS: usize = 5;
pub const ELCO: usize = 13;
pub const TESCO: usize = 3;

/// Both tables of a family as `cfode` leaves them, over zeros.
pub fn of_family(meth: usize) -> (Elco, Tesco) {
    let mut elco = [0.0; ELCO * ORDERS];
    let mut tesco = [0.0; TESCO * ORDERS];
    reach::cfode(meth, &mut elco, &mut tesco);
    (elco, tesco)
}

/// A state after the first call's setup.
pub fn set_up() -> State {
    let mut state = State::new(1);
    reach::stoda_first_call_init(&mut state);
    state
}

pub fn compare(report: &mut Report) {
    let zeros = ([0.0; ELCO * ORDERS], [0.0; TESCO * ORDERS]);
    let state = set_up();
    family(report, "no table yet", 0, &zeros);
    family(report, "Adams table", 1, &of_family(1));
    family(report, "table after the first call's setup", 1, &(state.elco, state.tesco));
    family(report, "BDF table", 2, &of_family(2));

    let mut tally = Tally::new("cm1, cm2, SM1");
    for order in 1..=ORDERS {
        tally.number(ours::probe_cm1(0, order), 0.0, || format!("cm1 0 {order}"));
        tally.number(ours::probe_cm1(1, order), state.cm1[order - 1], || format!("cm1 1 {order}"));
        tally.number(ours::probe_sm1(order), SM1[order - 1], || format!("SM1 {order}"));
    }
    for order in 1..=BDF_ORDERS {
        tally.number(ours::probe_cm2(0, order), 0.0, || format!("cm2 0 {order}"));
        tally.number(ours::probe_cm2(1, order), state.cm2[order - 1], || format!("cm2 1 {order}"));
    }
    report.end(tally, "");
}

fn family(report: &mut Report, name: &str, table: usize, (elco, tesco): &(Elco, Tesco)) {
    let mut tally = Tally::new(name);
    for order in 1..=ORDERS {
        for i in 0..ELCO {
            let theirs = elco[ELCO * (order - 1) + i];
            tally.number(ours::probe_elco(table, order, i), theirs, || format!("elco {table} {order} {i}"));
        }
        for i in 0..TESCO {
            let theirs = tesco[TESCO * (order - 1) + i];
            tally.number(ours::probe_tesco(table, order, i), theirs, || format!("tesco {table} {order} {i}"));
        }
    }
    report.end(tally, "");
}
