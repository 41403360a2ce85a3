//! The record and the work of a session as the reference's `Common` and `Work`, and whether both leave the same.

use crate::calls::Lent;
use crate::report::same;
use crate::session::{Field, ICOUNT, count, float};
use reference::reach::{self, Buffers, State};
use std::sync::LazyLock;

/// A state with the coefficients that the first setup puts in force.
pub static SET: LazyLock<State> = LazyLock::new(|| {
    let mut state = State::new(1);
    reach::stoda_first_call_init(&mut state);
    state
});

/// `Common` as the session has it. `hold` is h between steps, and `mused` is not read there.
pub fn state(session: &[u8]) -> State {
    let at = |field| count(session, field) as usize;
    let float = |field| float(session, field);
    let n = at(Field::n);
    let bdf = at(Field::meth) == 2;
    let mut state = State::new(n);
    if at(Field::table) == 1 {
        (state.elco, state.tesco, state.cm1, state.cm2) = (SET.elco, SET.tesco, SET.cm1, SET.cm2);
    }
    let reset = at(Field::nqnyh) / n;
    state.el.copy_from_slice(&state.elco[13 * (reset - 1)..13 * reset]);
    state.jtyp = if at(Field::supplied) == 1 { 1 } else { 2 };
    (state.meth, state.mused) = (at(Field::meth), at(Field::meth));
    state.miter = if bdf { state.jtyp } else { 0 };
    state.ipup = if at(Field::due) == 1 { state.miter.max(1) } else { 0 };
    state.mxordn = at(Field::mxordn).min(12);
    state.mxords = at(Field::mxords).min(5);
    state.maxord = if bdf { state.mxords } else { state.mxordn };
    (state.maxcor, state.msbp, state.mxncf) = (at(Field::maxcor), at(Field::msbp).max(1), at(Field::mxncf).max(1));
    (state.nq, state.l, state.lmax, state.nqnyh) =
        (at(Field::nq), at(Field::nq) + 1, at(Field::lmax), at(Field::nqnyh));
    (state.ialth, state.icount) = (at(Field::ialth), at(Field::icount) as isize - ICOUNT as isize);
    (state.nslp, state.nst, state.nfe) = (at(Field::nslp), at(Field::nst), at(Field::nfe));
    (state.nje, state.nlu) = (at(Field::nje), at(Field::nlu));
    (state.rejected, state.total_steps) = (at(Field::rejected), at(Field::total));
    (state.jcur, state.jstart) = (at(Field::jcur), if at(Field::setup) == 1 { 0 } else { 1 });
    (state.tn, state.h, state.hold, state.hu) = (float(Field::tn), float(Field::h), float(Field::h), float(Field::hu));
    (state.hmin, state.hmxi) = (float(Field::hmin), float(Field::hmxi));
    (state.rc, state.el0, state.conit, state.rmax) =
        (float(Field::rc), float(Field::el0), float(Field::conit), float(Field::rmax));
    (state.pdest, state.pdlast, state.pdnorm) = (float(Field::pdest), float(Field::pdlast), float(Field::pdnorm));
    state.conv_rate = float(Field::convrate);
    state
}

pub fn buffers(lent: &Lent, n: usize) -> Buffers {
    let part = |from: usize, to: usize| lent.work[from * n..to * n].to_vec();
    let mut wm = vec![0.0; 2];
    wm.extend_from_slice(&lent.work[19 * n..]);
    let (yh, ewt, savf, ftem, acor) = (part(0, 13), part(13, 14), part(14, 15), part(15, 16), part(16, 17));
    Buffers { yh, ewt, savf, ftem, acor, wm, ipiv: lent.pivots.clone() }
}

/// The first field of the session that is another than the reference's.
pub fn record_differs(session: &[u8], state: &State) -> Option<String> {
    let counts = [
        (Field::meth, state.meth),
        (Field::nq, state.nq),
        (Field::nq, state.l - 1),
        (Field::lmax, state.lmax),
        (Field::nqnyh, state.nqnyh),
        (Field::ialth, state.ialth),
        (Field::icount, (state.icount + ICOUNT as isize) as usize),
        (Field::table, usize::from(state.elco[0] != 0.0)),
        (Field::nslp, state.nslp),
        (Field::nst, state.nst),
        (Field::nfe, state.nfe),
        (Field::nje, state.nje),
        (Field::nlu, state.nlu),
        (Field::rejected, state.rejected),
        (Field::total, state.total_steps),
        (Field::due, usize::from(state.ipup > 0)),
        (Field::jcur, state.jcur),
        (Field::setup, usize::from(state.jstart == 0)),
    ];
    let floats = [
        (Field::tn, state.tn),
        (Field::h, state.h),
        (Field::hu, state.hu),
        (Field::rc, state.rc),
        (Field::el0, state.el0),
        (Field::conit, state.conit),
        (Field::rmax, state.rmax),
        (Field::pdest, state.pdest),
        (Field::pdlast, state.pdlast),
        (Field::pdnorm, state.pdnorm),
        (Field::convrate, state.conv_rate),
    ];
    for (field, theirs) in counts {
        let ours = count(session, field);
        if ours != theirs as u64 {
            return Some(format!("{field:?}: ours {ours}, theirs {theirs}"));
        }
    }
    for (field, theirs) in floats {
        let ours = float(session, field);
        if !same(ours, theirs) {
            return Some(format!("{field:?}: ours {ours:e}, theirs {theirs:e}"));
        }
    }
    // The session has no el: it is the row of the order at the last reset.
    let reset = state.nqnyh / state.n;
    let row = &state.elco[13 * (reset - 1)..13 * (reset - 1) + reset + 1];
    (row.iter().zip(&state.el).any(|(a, b)| !same(*a, *b))).then(|| format!("el is not the row of order {reset}"))
}

/// The first number of the work, or the pivots, where they are others than the reference's. It has no lasting y_fd.
pub fn work_differs(lent: &Lent, theirs: &Buffers, y: &[f64], y_fd: &[f64]) -> Option<String> {
    if lent.pivots != theirs.ipiv {
        return Some(format!("pivots: ours {:?}, theirs {:?}", lent.pivots, theirs.ipiv));
    }
    let parts: [(&str, &[f64]); 8] = [
        ("history", &theirs.yh),
        ("ewt", &theirs.ewt),
        ("savf", &theirs.savf),
        ("ftem", &theirs.ftem),
        ("acor", &theirs.acor),
        ("y", y),
        ("y_fd", y_fd),
        ("matrix", &theirs.wm[2..]),
    ];
    let named = parts.iter().flat_map(|(name, part)| part.iter().enumerate().map(move |(i, x)| (name, i, *x)));
    let (ours, (name, i, theirs)) =
        lent.work.iter().zip(named).find(|(ours, (_, _, theirs))| !same(**ours, *theirs))?;
    Some(format!("{name} {i}: ours {ours:e}, theirs {theirs:e}"))
}
