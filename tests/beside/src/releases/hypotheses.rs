//! What is asked of a pair before anything is claimed of it.

use super::outsider::Outsider;
use super::Pair;
use crate::pairs::seen::State;
use interpreter::machine::end;
use interpreter::{is_fit, Call, Gate, Machine, Register};

/// "where s isn't a subset of j"; "two fit running records .. with equal size,
/// gates, error place, limit, place, pair, clock and open calls, agreeing on which
/// registers and words are trusted and on their labels and values."
#[derive(Clone, Copy, Debug, PartialEq, Eq)]
pub enum Hypothesis {
    ShutOut,
    WellFormed,
    Running,
    Size,
    Gates,
    ErrorPc,
    Limit,
    Pc,
    LabelPair,
    Clock,
    Calls,
    WhatIsTrusted,
    TrustedLabels,
    TrustedValues,
}
use Hypothesis::*;

/// The gates are those below their number; what stands behind them is none.
fn gates(machine: &Machine) -> &[Gate] {
    &machine.gates[..machine.gate_count.min(machine.gates.len())]
}

fn calls(machine: &Machine) -> (Call, Call) {
    (machine.first, machine.second)
}

/// What is to be agreed on of each location. Of two sizes it is what both have.
fn agree<T: PartialEq>(pair: &Pair, of: impl Fn(Register) -> T) -> bool {
    let both_trusted = |(a, b): &(Register, Register)| {
        pair.outsider.is_trusted_label(a.label) && pair.outsider.is_trusted_label(b.label)
    };
    let mut locations = pair.one.locations().zip(pair.other.locations()).filter(both_trusted);
    locations.all(|(a, b)| of(a) == of(b))
}

/// Which locations are trusted, registers first.
fn trusted(outsider: Outsider, state: &State) -> Vec<bool> {
    state.locations().map(|location| outsider.is_trusted_label(location.label)).collect()
}

/// "agreeing on which registers and words are trusted"
fn agree_on_trust(pair: &Pair) -> bool {
    let (one, other) = (trusted(pair.outsider, &pair.one), trusted(pair.outsider, &pair.other));
    one.iter().zip(&other).all(|(a, b)| a == b)
}

/// The hypotheses that a pair breaks; none where the claim speaks of it.
pub fn broken(pair: &Pair) -> Vec<Hypothesis> {
    let (a, b) = (&pair.one.machine, &pair.other.machine);
    let holds = [
        (ShutOut, pair.outsider.is_shut_out()),
        (WellFormed, is_fit(a) && is_fit(b)),
        (Running, (a.end, b.end) == (end::RUNNING, end::RUNNING)),
        (Size, a.size == b.size),
        (Gates, gates(a) == gates(b)),
        (ErrorPc, a.error_pc == b.error_pc),
        (Limit, a.limit == b.limit),
        (Pc, a.pc == b.pc),
        (LabelPair, a.pair == b.pair),
        (Clock, a.clock == b.clock),
        (Calls, calls(a) == calls(b)),
        (WhatIsTrusted, agree_on_trust(pair)),
        (TrustedLabels, agree(pair, |location| location.label)),
        (TrustedValues, agree(pair, |location| location.value)),
    ];
    let broken = holds.iter().filter(|(_, holds)| !holds);
    broken.map(|(hypothesis, _)| *hypothesis).collect()
}
