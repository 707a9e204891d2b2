//! Records of which a few words were changed at random, to the numbers at which
//! ranges end. What is due is not known: the two must only answer alike.

use crate::layout::{at, read, SPAN};
use interpreter::generator::random::Random;
use interpreter::machine::ZERO_REGISTER;
use interpreter::{is_fit, Pair};

/// Numbers at and around the ends of the ranges of all fields.
const NUMBERS: [u64; 24] = [
    0,
    1,
    2,
    3,
    4,
    8,
    9,
    15,
    16,
    18,
    51,
    239,
    240,
    255,
    256,
    2_048,
    2_049,
    (1 << 24) + 1,
    (1 << 32) - 1,
    1 << 32,
    (1 << 33) - 1,
    1 << 33,
    u64::MAX - 1,
    u64::MAX,
];

/// The words up to here are those of the machine; behind them are registers.
const CONTROL: usize = 44;

/// A word that fitness asks about: one of the machine, or of register 0.
fn asked(random: &mut Random) -> usize {
    match random.below(20) {
        0 => at::value(ZERO_REGISTER),
        1 => at::label(ZERO_REGISTER),
        _ => random.index(CONTROL),
    }
}

/// What must come up among them: a record that only a gate's pair makes unfit, and
/// a fit one with a pair that is not valid behind its gates.
pub const GATES: [&str; 2] =
    ["random words, an invalid gate alone", "random words, an invalid pair behind the gates"];

/// Which of these a buffer's words are.
pub fn gates_of(record: &[u64]) -> Option<&'static str> {
    let machine = read(record)?;
    let mut mended = machine.clone();
    mended.gates.iter_mut().for_each(|gate| gate.pair = Pair::new(240, 240));
    if !is_fit(&mended) {
        return None;
    }
    let (below, behind) = machine.gates.split_at(machine.gate_count);
    let kinds = GATES.into_iter().zip([below, behind]);
    let mut met = kinds.filter(|(_, gates)| gates.iter().any(|gate| !gate.pair.is_valid()));
    met.next().map(|(name, _)| name)
}

/// Changes one to three words, mostly of those that fitness asks about.
pub fn change(random: &mut Random, record: &[u64; SPAN]) -> [u64; SPAN] {
    let mut changed = *record;
    for _ in 0..random.between(1, 3) {
        let word = if random.chance(85) { asked(random) } else { random.index(SPAN) };
        changed[word] = match random.below(4) {
            0 => changed[word].wrapping_add(1),
            1 => changed[word].wrapping_sub(1),
            2 => record[random.index(SPAN)],
            _ => random.pick(&NUMBERS),
        };
    }
    changed
}
