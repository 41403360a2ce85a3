//! A record crafted for one call: lent to ours as numbers, and as a `State` to the reference.
//! Its orders, sizes and tables are in range, and everything else is any number; nqnyh may be above nq·n, as a family
//! change leaves it.

use crate::cases::Random;
use crate::tables;
use reference::reach::{self, SM1, State};

/// In the order of crates/probe/specs/Lent.antt.
pub mod float {
    pub const HMXI: usize = 0;
    pub const TN: usize = 1;
    pub const H: usize = 2;
    pub const HU: usize = 3;
    pub const RC: usize = 4;
    pub const EL0: usize = 5;
    pub const CONIT: usize = 6;
    pub const RMAX: usize = 7;
    pub const PDEST: usize = 8;
    pub const PDLAST: usize = 9;
    pub const CONVRATE: usize = 10;
    pub const ALL: usize = 11;
}

pub mod count {
    pub const N: usize = 0;
    pub const MXORDN: usize = 1;
    pub const MXORDS: usize = 2;
    pub const MSBP: usize = 3;
    pub const FAMILY: usize = 4;
    pub const NQ: usize = 5;
    pub const LMAX: usize = 6;
    pub const NQNYH: usize = 7;
    pub const IALTH: usize = 8;
    pub const ICOUNT: usize = 9;
    pub const TABLE: usize = 10;
    pub const NSLP: usize = 11;
    pub const NST: usize = 12;
    pub const DUE: usize = 13;
    pub const ALL: usize = 14;
}

/// Added to icount in our record.
const ICOUNT_0: isize = 1_000_000;

#[derive(Clone)]
pub struct Record {
    pub floats: [f64; float::ALL],
    pub counts: [usize; count::ALL],
}

impl Record {
    pub fn draw(random: &mut Random) -> Self {
        let kind = random.kind();
        let mut floats = [0.0; float::ALL];
        floats.iter_mut().for_each(|x| *x = random.draw(kind));
        // where rc asks for a Jacobian, and factors of a rescale that occur
        if random.below(2) == 0 {
            let edge = random.one_of(&[0.7, 1.3]);
            floats[float::RC] = f64::from_bits(edge.to_bits() - 1 + random.below(3));
        }
        if random.below(2) == 0 {
            floats[float::RMAX] = random.one_of(&[0.0, 2.0, 10_000.0]);
        }
        if random.below(3) == 0 {
            floats[float::PDLAST] = 0.0;
        }
        if random.below(3) == 0 {
            floats[float::HMXI] = 0.0;
        }
        let n = random.states();
        let order = random.within(1, tables::ORDERS);
        let mut counts = [0; count::ALL];
        counts[count::N] = n;
        counts[count::MXORDN] = random.within(1, 20);
        counts[count::MXORDS] = random.within(1, 10);
        counts[count::MSBP] = random.within(0, 20);
        counts[count::FAMILY] = random.within(1, 2);
        counts[count::NQ] = if random.below(2) == 0 { order } else { random.within(1, order) };
        counts[count::LMAX] = random.within(2, 13);
        counts[count::NQNYH] = order * n;
        counts[count::IALTH] = random.within(1, 20);
        counts[count::ICOUNT] = random.within(20, 1_000_020);
        counts[count::TABLE] = random.within(0, 2);
        counts[count::NSLP] = random.within(0, 1000);
        // around the step where msbp have passed
        counts[count::NST] = counts[count::NSLP] + random.within(0, 20 + 2);
        counts[count::DUE] = random.within(0, 1);
        Record { floats, counts }
    }

    pub fn n(&self) -> usize {
        self.counts[count::N]
    }

    pub fn nq(&self) -> usize {
        self.counts[count::NQ]
    }

    /// The order whose coefficients are in force.
    fn order(&self) -> usize {
        self.counts[count::NQNYH] / self.n()
    }

    /// For a factor rh, and with no other limit on it: pdlast where the stability limit begins, or next to it.
    pub fn at_stability_limit(&mut self, random: &mut Random, rh: f64) {
        self.counts[count::FAMILY] = 1;
        self.floats[float::HMXI] = 0.0;
        self.floats[float::RMAX] = 10_000.0;
        let h = self.floats[float::H].abs();
        let edge = SM1[self.nq() - 1] / (rh * 1.00001 * h);
        if edge.is_finite() && edge > 0.0 {
            self.floats[float::PDLAST] = f64::from_bits(edge.to_bits() - 2 + random.below(5));
        }
    }

    /// The reference's record: el is what its own reset took from the table at the order in force.
    pub fn state(&self, random: &mut Random) -> State {
        let count = |place: usize| self.counts[place];
        let float = |place: usize| self.floats[place];
        let mut state = State::new(self.n());
        if count(count::TABLE) != 0 {
            (state.elco, state.tesco) = tables::of_family(count(count::TABLE));
        }
        (state.nq, state.l) = (self.order(), self.order() + 1);
        reach::stoda_reset(&mut state);
        (state.nq, state.l, state.nqnyh) = (self.nq(), self.nq() + 1, count(count::NQNYH));
        (state.meth, state.jtyp) = (count(count::FAMILY), random.within(1, 2));
        state.mxordn = count(count::MXORDN).min(tables::ORDERS);
        state.mxords = count(count::MXORDS).min(tables::BDF_ORDERS);
        (state.miter, state.maxord) = if state.meth == 2 { (state.jtyp, state.mxords) } else { (0, state.mxordn) };
        state.msbp = count(count::MSBP).max(1);
        state.ipup = if count(count::DUE) == 1 { state.jtyp } else { 0 };
        (state.lmax, state.ialth) = (count(count::LMAX), count(count::IALTH));
        state.icount = count(count::ICOUNT) as isize - ICOUNT_0;
        (state.nslp, state.nst) = (count(count::NSLP), count(count::NST));
        (state.hmxi, state.tn, state.h, state.hu) =
            (float(float::HMXI), float(float::TN), float(float::H), float(float::HU));
        (state.rc, state.el0, state.conit) = (float(float::RC), float(float::EL0), float(float::CONIT));
        (state.rmax, state.conv_rate) = (float(float::RMAX), float(float::CONVRATE));
        (state.pdest, state.pdlast) = (float(float::PDEST), float(float::PDLAST));
        state
    }

    /// What this record would be as the reference left it. The table is told by what stands in it.
    pub fn of(&self, state: &State) -> Self {
        let floats = [
            state.hmxi,
            state.tn,
            state.h,
            state.hu,
            state.rc,
            state.el0,
            state.conit,
            state.rmax,
            state.pdest,
            state.pdlast,
            state.conv_rate,
        ];
        let given = |place: usize| self.counts[place];
        let tables = [([0.0; tables::ELCO * tables::ORDERS], [0.0; tables::TESCO * tables::ORDERS])];
        let tables = tables.into_iter().chain((1..=2).map(tables::of_family)).collect::<Vec<_>>();
        let table = tables.iter().position(|(elco, tesco)| *elco == state.elco && *tesco == state.tesco);
        assert_eq!(state.l, state.nq + 1);
        let counts = [
            state.n,
            given(count::MXORDN),
            given(count::MXORDS),
            given(count::MSBP),
            state.meth,
            state.nq,
            state.lmax,
            state.nqnyh,
            state.ialth,
            (state.icount + ICOUNT_0) as usize,
            table.expect("the tables are those of a family"),
            state.nslp,
            state.nst,
            usize::from(state.ipup != 0),
        ];
        Record { floats, counts }
    }
}
