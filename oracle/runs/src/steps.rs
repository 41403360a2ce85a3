//! One step from a crafted state, by our calls and by the reference's `stoda`: requests, outcome, every field of the
//! record and the whole work compared.

use crate::calls::{Lent, number};
use crate::cases::Random;
use crate::coverage::{Column, Coverage, Watch};
use crate::craft::Crafted;
use crate::event::{End, Event, Report as Step, first_difference};
use crate::mirror;
use crate::ours::{call, evaluated, is_end, question};
use crate::outcome::returned;
use crate::report::{Report, Tally, same};
use crate::session::{FIELDS, FLOATS, Field, ICOUNT, LENGTH, RTOL, count, float, phase, word};
use crate::sides::pattern;
use crate::theirs::{Asked, poses, tolerance};
use reference::error::{ConfigError, Error};
use reference::methods::LSODA;
use reference::reach::{self, Buffers, State};

pub fn compare(report: &mut Report, coverage: &mut Coverage, size: u64, seed: u64) {
    let mut tally = Tally::new("crafted steps");
    let mut random = Random::new(seed, "crafted steps");
    let (mut events, mut listed) = (0, 0);
    for step in 0..size {
        let crafted = Crafted::draw(&mut random);
        let theirs = theirs(&crafted);
        let mut watch = Watch::default();
        let ours = ours(&crafted, theirs.events.len() + 1, &mut watch);
        coverage.add(Column::Crafted, watch);
        events += theirs.events.len();
        if ours.ended(number::GAP) && is_listed(&ours, &theirs) {
            listed += 1;
            continue;
        }
        let difference =
            first_difference(&ours.events, &theirs.events).or_else(|| left_otherwise(&crafted, &ours, &theirs));
        tally.case(difference.is_none(), || format!("step {step}, {}\n    {}", difference.unwrap(), told(&crafted)));
    }
    report.end(tally, format!("{events} events; {listed} not compared, at the gap with mxordn below the order"));
}

/// The coefficient gap where the reference does not panic, since mxordn is below the order: docs/DIFFERENCES.md. Up to
/// there both ask the same.
fn is_listed(ours: &Ours, theirs: &Theirs) -> bool {
    let at = |field| count(&ours.lent.session, field);
    let (_, asked) = ours.events.split_last().expect("a call has answered");
    at(Field::meth) == 2
        && at(Field::nq) >= 6
        && at(Field::icount) < ICOUNT
        && at(Field::mxordn).min(12) < at(Field::nq)
        && asked.len() < theirs.events.len()
        && asked.iter().zip(&theirs.events).all(|(ours, theirs)| ours.is(theirs))
}

// ---- the reference

struct Theirs {
    state: State,
    work: Buffers,
    y: Vec<f64>,
    told: f64,
    events: Vec<Event>,
}

/// What `solve` does from the reply on: the reply's own part, the loop's tests, the cut, `stoda`, and what follows it.
fn theirs(crafted: &Crafted) -> Theirs {
    let Crafted { n, lent, given, side, .. } = crafted;
    let n = *n;
    let session = &lent.session;
    let mut state = mirror::state(session);
    let mut work = mirror::buffers(lent, n);
    let mut y = lent.work[17 * n..18 * n].to_vec();
    match crafted.phase {
        phase::REPORT => {
            y.copy_from_slice(&given.numbers);
            work.yh[..n].copy_from_slice(&y);
            state.tn = given.time;
        }
        phase::FIRST_REPORT => state.tn = given.time,
        phase::FIRST_MODIFIED => {
            work.savf.copy_from_slice(&given.numbers);
            (0..n).for_each(|i| work.yh[n + i] = state.h * work.savf[i]);
        }
        _ => {
            // It requests the derivative itself, which the session counted when it asked.
            state.nfe -= 1;
            let asked = Asked::new(side, true);
            reach::restart_after_modification(&asked, &mut work, &mut state).expect("these weights are above 0");
        }
    }
    let asked = Asked::new(side, false);
    let told = state.tn;
    let (xend, direction) = (float(session, Field::xend), float(session, Field::direction));
    let goes_on = (xend - state.tn) * direction > 0.0;
    let last = if !goes_on {
        Event::End(end(number::SUCCESS, &state))
    } else if state.nst >= count(session, Field::maxsteps) as usize {
        Event::End(end(number::NEEDS_MORE_STEPS, &state))
    } else {
        let remaining = xend - state.tn;
        if state.h.abs() > remaining.abs() {
            state.h = remaining;
            state.jstart = -2;
        }
        let (rtol, atol) = (tolerance(&crafted.rtol), tolerance(&crafted.atol));
        match returned(|| reach::stoda(&asked, &mut y, &rtol, &atol, &mut work, &mut state)) {
            None => Event::Panicked,
            Some(Err(Error::Config(ConfigError::NegativeTolerance { index, .. }))) => {
                Event::Refused { number: 12, index, value: 0.0 }
            }
            Some(Err(error)) => panic!("{error:?} is never given here"),
            Some(Ok(())) => stepped(&mut state, &mut work, &mut y, told, asked.count.get()),
        }
    };
    let mut events = asked.events.into_inner();
    events.push(last);
    Theirs { state, work, y, told, events }
}

fn stepped(state: &mut State, work: &mut Buffers, y: &mut [f64], told: f64, count: usize) -> Event {
    match state.kflag {
        -1 => return Event::End(end(number::TOO_SMALL, state)),
        -2 => return Event::End(end(number::POOR, state)),
        _ => {}
    }
    y.copy_from_slice(&work.yh[..y.len()]);
    state.total_steps = state.nst + state.rejected;
    let snapshot = reach::snapshot_step(state, work);
    let poses = poses(told, state.tn, y.len(), |at, pose| LSODA::interpolate(at, pose, &snapshot, told, state.hu));
    Event::Report(Box::new(Step { previous: told, time: state.tn, y: y.to_vec(), count, snapshot, poses }))
}

fn end(number: usize, state: &State) -> End {
    End {
        number,
        h: state.h,
        evaluations: [state.nfe, state.nje, state.nlu],
        steps: [state.total_steps, state.nst, state.rejected],
    }
}

// ---- ours

struct Ours {
    lent: Lent,
    events: Vec<Event>,
    /// What y_fd holds at the end: the state of the last Jacobian by differences, put back.
    y_fd: Vec<f64>,
}

impl Ours {
    fn ended(&self, number: usize) -> bool {
        matches!(self.events.last(), Some(Event::End(end)) if end.number == number)
    }
}

fn ours(crafted: &Crafted, most: usize, watch: &mut Watch) -> Ours {
    let n = crafted.n;
    let mut lent = crafted.lent.clone();
    let mut given = crafted.given.clone();
    let mut events = Vec::new();
    let mut y_fd = lent.work[18 * n..19 * n].to_vec();
    while events.len() < most {
        watch.before(&lent, n);
        let reply = match call(&given, &mut lent, n) {
            Ok(reply) => reply,
            Err(broken) => {
                events.push(Event::Broken(broken));
                break;
            }
        };
        watch.after(&given, &reply, &lent, n);
        events.push(question(&reply, &lent, n));
        if reply.number == number::REPORT || is_end(reply.number) || reply.number < number::DERIVATIVE {
            break;
        }
        if count(&lent.session, Field::phase) == phase::DIFFERENCE_COLUMN {
            y_fd.copy_from_slice(&lent.work[17 * n..18 * n]);
        }
        given = evaluated(&reply, &lent, n, &crafted.side, events.len() as u64 - 1);
    }
    Ours { lent, events, y_fd }
}

// ---- what both leave

/// The first field or number that differs; settings and tolerances stay as they were.
fn left_otherwise(crafted: &Crafted, ours: &Ours, theirs: &Theirs) -> Option<String> {
    let session = &ours.lent.session;
    let fixed = (1..FIELDS.len())
        .filter(|&at| at < Field::meth as usize || (Field::xend as usize..Field::tn as usize).contains(&at));
    for at in fixed.chain(RTOL..LENGTH / 8) {
        // A float is kept, and any NaN becomes the one that a session has.
        let kept = |word: u64| if at < FLOATS { word } else { pattern(f64::from_bits(word)) };
        if kept(word(session, at)) != kept(word(&crafted.lent.session, at)) {
            return Some(format!("word {at} of the session changed"));
        }
    }
    let began = theirs.events.len() > 1;
    if began && !same(float(session, Field::told), theirs.told) {
        return Some(format!("told: ours {:e}, theirs {:e}", float(session, Field::told), theirs.told));
    }
    mirror::record_differs(session, &theirs.state)
        .or_else(|| mirror::work_differs(&ours.lent, &theirs.work, &theirs.y, &ours.y_fd))
}

fn told(crafted: &Crafted) -> String {
    let session = &crafted.lent.session;
    let field = |&field: &Field| match (field as usize) < FLOATS {
        true => format!("{field:?} {}", count(session, field)),
        false => format!("{field:?} {:e}", float(session, field)),
    };
    let record: Vec<String> = FIELDS.iter().map(field).collect();
    let Crafted { given, side, lent, .. } = crafted;
    format!("{}\n    {given:?} {side:?}\n    work {:?}", record.join(", "), lent.work)
}
