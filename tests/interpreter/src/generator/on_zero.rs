//! Ops that would write or relabel register 0, which stays as it is.

use crate::instruction::{op, Instruction};
use crate::machine::{Call, Machine, Register, MAX_LIMIT, ZERO_REGISTER};

/// Whether an op writes or relabels register a.
pub fn writes(number: u8) -> bool {
    matches!(
        number,
        op::SET..=op::LOAD | op::READ_CLOCK..=op::RELABEL | op::DIVIDE..=op::REMAINDER
    )
}

/// Whether it is register 0 that an op would write or relabel.
pub fn is_on_zero(i: Instruction) -> bool {
    writes(i.op()) && i.a() == ZERO_REGISTER
}

/// The word with another register a.
pub fn with_a(word: u32, a: usize) -> u32 {
    word & !(15 << 20) | (a as u32) << 20
}

/// A copy with all the time in the world, for which the clock has begun to tick
/// if it has for the machine.
pub fn unhurried(machine: &Machine) -> Machine {
    let mut copy = machine.clone();
    copy.clock = copy.clock.min(1);
    copy.limit = MAX_LIMIT;
    for call in [&mut copy.first, &mut copy.second] {
        if let Call::Upcall(_, end_tick) = call {
            *end_tick = MAX_LIMIT - 1;
        }
    }
    copy
}

/// Whether nothing but its being register 0 stops the op at the pc: another
/// register that is as register 0 is would be changed.
pub fn is_stopped_alone(machine: &Machine, words: &[u32], labels: &[u8]) -> bool {
    let pc = machine.pc as usize;
    let i = Instruction(words[pc]);
    let is_free = |&register: &usize| register != i.b() && register != i.c();
    let other = (ZERO_REGISTER + 1..machine.registers.len()).find(is_free);
    let other = other.expect("an op reads two registers of sixteen");
    let mut copy = unhurried(machine);
    copy.registers[other] = Register::UNSET;
    let mut words = words.to_vec();
    words[pc] = with_a(words[pc], other);
    copy.step(&mut words, labels).expect("a loaded record stays fit");
    copy.registers[other] != Register::UNSET
}
