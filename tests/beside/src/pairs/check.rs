//! The claim: "the two are alike at or below it at every tick that both have
//! reached".

use super::provisos::earlier;
use super::seen::{are_alike, difference, State};
use super::trace::Trace;
use interpreter::Label;

/// How far two traces were compared, and the first tick at which they differ.
pub struct Compared {
    pub ticks: u64,
    pub differs: Option<(u64, String)>,
}

/// The number of steps "finishing at or before k". The clock never goes back, so
/// they are those of a front part.
pub fn done_at(trace: &Trace, tick: u64) -> usize {
    trace.states[1..].partition_point(|state| state.machine.clock <= tick)
}

/// "The state at tick k is that after the last step finishing at or before k, or
/// the loaded one if there is none."
pub fn state_at(trace: &Trace, tick: u64) -> &State {
    &trace.states[done_at(trace, tick)]
}

/// The first tick that not both have reached; behind the last clock of both
/// nothing changes any more.
pub fn unreached(one: &Trace, other: &Trace) -> u64 {
    let last = one.last().machine.clock.max(other.last().machine.clock) + 1;
    earlier(one.unreached(), other.unreached()).unwrap_or(last)
}

/// Compares at every tick below the bound.
pub fn compare(level: Label, one: &Trace, other: &Trace, bound: u64) -> Compared {
    for tick in 0..bound {
        let (a, b) = (state_at(one, tick), state_at(other, tick));
        if !are_alike(level, a, b) {
            return Compared { ticks: tick, differs: Some((tick, difference(level, a, b))) };
        }
    }
    Compared { ticks: bound, differs: None }
}
