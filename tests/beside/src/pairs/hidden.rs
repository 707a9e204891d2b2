//! Upcalls that ℓ doesn't see into: what went on in them, and what was written
//! in sight after they came back.

use super::seen::{is_within, seen, State};
use super::trace::Trace;
use interpreter::Label;

/// An upcall from within ℓ to outside and back.
struct Visit {
    opened: u64,
    closed: u64,
    /// Whether it stands over a gate call.
    over_gate: bool,
    /// The clock and the pc of each state in it.
    run: Vec<(u64, u32)>,
}

impl Visit {
    fn open(state: &State) -> Visit {
        let over_gate = !state.machine.second.is_empty();
        Visit { opened: state.machine.clock, closed: 0, over_gate, run: vec![point(state)] }
    }
}

fn point(state: &State) -> (u64, u32) {
    (state.machine.clock, state.machine.pc)
}

/// The visits of a trace that came back before the bound. Under the provisos
/// nothing but the close of an upcall brings p back within; op 17 in an upcall
/// that is seen may have hidden it.
fn visits(level: Label, trace: &Trace, bound: u64) -> Vec<Visit> {
    let mut visits = Vec::new();
    let mut open: Option<Visit> = None;
    for step in trace.states.windows(2) {
        let (clock, _) = point(&step[1]);
        match (step[0].shows_control(level), step[1].shows_control(level)) {
            (true, false) => open = Some(Visit::open(&step[1])),
            (false, false) => open.iter_mut().for_each(|visit| visit.run.push(point(&step[1]))),
            (false, true) => {
                visits.extend(open.take().map(|visit| Visit { closed: clock, ..visit }))
            }
            (true, true) => {}
        }
    }
    visits.retain(|visit| visit.closed < bound);
    visits
}

/// The clock after the last step before the bound that was done in sight and
/// changed a value in sight.
fn last_write(level: Label, trace: &Trace, bound: u64) -> Option<u64> {
    let writes = |step: &&[State]| {
        let changed = step[0]
            .locations()
            .zip(step[1].locations())
            .any(|(a, b)| is_within(a.label, level) && seen(a, level) != seen(b, level));
        changed && step[0].shows_control(level) && step[1].machine.clock < bound
    };
    let step = trace.states.windows(2).rfind(writes)?;
    Some(step[1].machine.clock)
}

/// How far a pair came with a hidden upcall.
#[derive(Clone, Copy, Debug, PartialEq, Eq, PartialOrd, Ord)]
pub enum Came {
    Nowhere,
    /// Both came back from the same one.
    Back,
    /// And their runs in it were different.
    BackByDifferentRuns,
    /// And both wrote in sight afterwards.
    BackToWrites,
}

/// How far the pair came, before the bound.
pub fn came(level: Label, one: &Trace, other: &Trace, bound: u64) -> Came {
    let writes = (last_write(level, one, bound), last_write(level, other, bound));
    let other_visits = visits(level, other, bound);
    let mut came = Came::Nowhere;
    for a in visits(level, one, bound) {
        let same = |b: &&Visit| (a.opened, a.closed) == (b.opened, b.closed);
        let wrote = Some(a.closed) < writes.0.min(writes.1);
        came = came.max(match other_visits.iter().find(same) {
            None => Came::Nowhere,
            Some(b) if a.run == b.run => Came::Back,
            Some(_) if !wrote => Came::BackByDifferentRuns,
            Some(_) => Came::BackToWrites,
        });
    }
    came
}

/// Whether a trace came back, before the bound, from an upcall over a gate call.
pub fn came_over_gate(level: Label, trace: &Trace, bound: u64) -> bool {
    visits(level, trace, bound).iter().any(|visit| visit.over_gate)
}
