//! The three provisos: from which tick on a trace breaks each.

use super::seen::{is_within, State};
use super::trace::Trace;
use interpreter::{Call, Label};

/// The provisos, in the order of the demand.
pub const NAMES: [&str; 3] = [
    "a location lowered from outside to within",
    "a gate call from outside to within",
    "p within and t outside",
];

/// The first tick from which each proviso is broken; none where it never is.
pub type Bounds = [Option<u64>; 3];

/// "A step lowers a location (a register or a word) when its label is outside ℓ
/// before and within after."
fn lowers(level: Label, before: &State, after: &State) -> bool {
    let mut locations = before.locations().zip(after.locations());
    locations.any(|(a, b)| !is_within(a.label, level) && is_within(b.label, level))
}

/// "It takes a gate call when op 20 passes its checks and is carried out, from p
/// before to p after." Nothing but op 20 fills an empty place with a gate call.
fn takes_gate_call(level: Label, before: &State, after: &State) -> bool {
    let calls = (before.machine.first, after.machine.first);
    let taken = matches!(calls, (Call::Empty, Call::Gate(_)));
    taken && !before.shows_control(level) && after.shows_control(level)
}

/// "has its place label within and its clock label outside"
fn hides_clock(level: Label, state: &State) -> bool {
    state.shows_control(level) && !is_within(state.machine.pair.timing, level)
}

/// "'Up to k' means the loaded state, the steps finishing at or before k and the
/// states after them." So a proviso is broken from the clock on that the first
/// such step or state has.
pub fn bounds(level: Label, trace: &Trace) -> Bounds {
    let steps = || trace.states.windows(2).map(|step| (&step[0], &step[1]));
    let lowered = steps().find(|(a, b)| lowers(level, a, b)).map(|(_, after)| after);
    let called = steps().find(|(a, b)| takes_gate_call(level, a, b)).map(|(_, after)| after);
    let hidden = trace.states.iter().find(|state| hides_clock(level, state));
    [lowered, called, hidden].map(|state| state.map(|state| state.machine.clock))
}

/// The earlier of two ticks, where none is later than all.
pub fn earlier(one: Option<u64>, other: Option<u64>) -> Option<u64> {
    match (one, other) {
        (Some(a), Some(b)) => Some(a.min(b)),
        (a, b) => a.or(b),
    }
}

/// The bounds of two traces together.
pub fn both(one: Bounds, other: Bounds) -> Bounds {
    [0, 1, 2].map(|proviso| earlier(one[proviso], other[proviso]))
}

/// The first tick from which any proviso is broken, but for one that may be
/// ignored.
pub fn first_broken(bounds: Bounds, ignored: Option<usize>) -> Option<u64> {
    let counted = (0..bounds.len()).filter(|&proviso| Some(proviso) != ignored);
    counted.fold(None, |first, proviso| earlier(first, bounds[proviso]))
}
