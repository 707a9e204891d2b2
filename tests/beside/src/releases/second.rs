//! The second record of a pair: it differs from the first in what isn't trusted,
//! and behind the gates.

use super::outsider::Outsider;
use crate::pairs::make::any_op;
use crate::pairs::seen::State;
use interpreter::generator::labels::{invalid_pair, valid_pair};
use interpreter::generator::random::Random;
use interpreter::instruction::{encode, op};
use interpreter::machine::{Machine, ZERO_REGISTER};
use interpreter::{Gate, Register};

/// The bits of a word that name its registers a and b.
const OPERANDS: u32 = 0x00ff_0000;

/// Another value: a label, an op, the same with another operand, or any.
fn change_value(random: &mut Random, value: u32) -> u32 {
    match random.below(6) {
        0 => random.below(256),
        1 => value ^ 1 << random.below(u32::BITS),
        2 => value ^ random.bits() & OPERANDS,
        3 => encode(op::RELABEL, random.bits(), random.bits(), random.bits()),
        4 => any_op(random),
        _ => random.bits(),
    }
}

/// Changes a location that isn't trusted: the value, the label to another that isn't
/// trusted, or both. At times it is left.
fn change(random: &mut Random, outsider: Outsider, location: Register) -> Register {
    let Register { value, label } = location;
    if outsider.is_trusted_label(label) || random.chance(10) {
        return location;
    }
    match random.below(3) {
        0 => Register { value, label: outsider.untrusted_label(random) },
        1 => Register { value: change_value(random, value), label },
        _ => {
            Register { value: change_value(random, value), label: outsider.untrusted_label(random) }
        }
    }
}

/// What stands behind the gates is none of them.
fn change_behind_gates(random: &mut Random, machine: &mut Machine) {
    for gate in &mut machine.gates[machine.gate_count..] {
        let pair = if random.chance(50) { valid_pair(random) } else { invalid_pair(random) };
        *gate = Gate { pc: random.bits(), pair };
    }
}

/// Another record that agrees with this one on all that is trusted. Register 0 is
/// what it is in every well-formed record, trusted or not.
pub fn make(random: &mut Random, outsider: Outsider, one: &State) -> State {
    let mut other = one.clone();
    let settable = &mut other.machine.registers[ZERO_REGISTER + 1..];
    settable.iter_mut().for_each(|register| *register = change(random, outsider, *register));
    other.set_words(|word| change(random, outsider, word));
    if random.chance(50) {
        change_behind_gates(random, &mut other.machine);
    }
    other
}
