//! Divisions in visible time on hidden operands. They come "each in 34 ticks whoever
//! may see the operands", so that both machines of a pair go on at the same tick.

use super::operands::{done, Done, Outcome};
use super::seen::is_within;
use super::trace::Trace;
use interpreter::instruction::op;
use interpreter::Label;

const OPS: [u8; 2] = [op::DIVIDE, op::REMAINDER];

/// What can be met of such a division.
#[derive(Clone, Copy, Debug, PartialEq, Eq)]
enum Met {
    /// Operands that differ, and what came of it.
    Differ(Outcome),
    ZeroAlone,
}

/// What must come up of both ops, and the name under which it counts.
const MET: [(Met, &str); 4] = [
    (Met::Differ(Outcome::Passed), "that differ, passed"),
    (Met::Differ(Outcome::Failed), "that differ, failed"),
    (Met::Differ(Outcome::OnZero), "that differ, with register 0 for the result"),
    (Met::ZeroAlone, "of which the divisor is 0 in one alone"),
];

/// All that must come up.
pub fn expected() -> Vec<String> {
    OPS.iter().flat_map(|&number| MET.map(|(_, kind)| name(number, kind))).collect()
}

fn name(number: u8, kind: &str) -> String {
    format!("pairs with op {number} in visible time on hidden operands {kind}")
}

/// What the divisions of one machine that were done before the bound have met,
/// beside the other machine of the pair, by name.
pub fn met(level: Label, one: &Trace, other: &Trace, bound: u64) -> Vec<String> {
    let mut names = Vec::new();
    for number in OPS {
        let divisions = done(level, one, bound, &[number]);
        let met: Vec<Met> =
            divisions.iter().flat_map(|division| met_by(division, level, other)).collect();
        let kinds = MET.iter().filter(|(kind, _)| met.contains(kind));
        names.extend(kinds.map(|(_, kind)| name(number, kind)));
    }
    names
}

/// What a division has met.
fn met_by(division: &Done, level: Label, other: &Trace) -> Vec<Met> {
    let (ours, theirs) = (division.ours(), division.theirs(other));
    let values = [ours, theirs].map(|operands| operands.map(|operand| operand.value));
    let [_, divisor] = ours;
    let is_zero = values.map(|[_, divisor]| divisor == 0);
    let is_zero_alone = !is_within(divisor.label, level) && is_zero[0] != is_zero[1];
    let differ = (values[0] != values[1]).then_some(Met::Differ(division.outcome()));
    differ.into_iter().chain(is_zero_alone.then_some(Met::ZeroAlone)).collect()
}
