//! Multiplies in visible time on a hidden factor, whose label doesn't flow to t: they
//! take 10 ticks, whatever it is. Counted are those in which it would have taken other
//! ticks in the one machine than in the other, were it timed by its bits.

use super::operands::{done, Done, Outcome};
use super::seen::is_within;
use super::trace::Trace;
use interpreter::instruction::op;
use interpreter::{Label, Register};

/// The factors, and what can come of a multiply, by the names under which they count.
const FACTORS: [&str; 2] = ["Rb", "Rc"];
const OUTCOMES: [(Outcome, &str); 3] = [
    (Outcome::Passed, "passed"),
    (Outcome::Failed, "failed"),
    (Outcome::OnZero, "with register 0 for the result"),
];

/// All that must come up.
pub fn expected() -> Vec<String> {
    FACTORS.iter().flat_map(|factor| OUTCOMES.map(|(_, outcome)| name(factor, outcome))).collect()
}

fn name(factor: &str, outcome: &str) -> String {
    format!("pairs with op 8 in visible time on a hidden {factor} of other ticks, {outcome}")
}

/// What the multiplies of one machine that were done before the bound have met,
/// beside the other machine of the pair, by name.
pub fn met(level: Label, one: &Trace, other: &Trace, bound: u64) -> Vec<String> {
    let multiplies = done(level, one, bound, &[op::MULTIPLY]);
    let met: Vec<String> =
        multiplies.iter().flat_map(|multiply| met_by(multiply, level, other)).collect();
    expected().into_iter().filter(|name| met.contains(name)).collect()
}

/// What a multiply has met, of each factor that is hidden.
fn met_by(multiply: &Done, level: Label, other: &Trace) -> Vec<String> {
    let pairs = multiply.ours().into_iter().zip(multiply.theirs(other));
    let factors = FACTORS.iter().zip(pairs).filter(|(_, (ours, theirs))| {
        !is_within(ours.label, level) && quarters(*ours) != quarters(*theirs)
    });
    let (_, outcome) = OUTCOMES
        .into_iter()
        .find(|(outcome, _)| *outcome == multiply.outcome())
        .expect("every outcome has a name");
    factors.map(|(factor, _)| name(factor, outcome)).collect()
}

/// "ceiling(k / 4), k being Rc's significant bits": what a factor in sight adds to
/// the ticks.
fn quarters(factor: Register) -> u32 {
    (u32::BITS - factor.value.leading_zeros()).div_ceil(4)
}
