//! Instruction words drawn at random, for a given op or any, and registers for them.

use super::random::Random;
use crate::instruction::{encode, op, Instruction};
use crate::machine::{Machine, Register, ZERO_REGISTER};

/// In so many of a hundred cases a register that an op reads is register 0.
const ZERO_CHANCE: u32 = 12;

/// An instruction word of any op, its fields as they come.
pub fn any_word(random: &mut Random, size: u32) -> u32 {
    let (first, last) = (*op::KNOWN.start(), *op::KNOWN.end());
    let number = random.between(first.into(), last.into()) as u8;
    let pc = random.below(size);
    word_of(random, number, pc, size)
}

/// A word of this op for this place. Branches lead mostly a little forward, so
/// that the program comes to new words. Unused bits are filled too: they must
/// be ignored.
pub fn word_of(random: &mut Random, number: u8, pc: u32, size: u32) -> u32 {
    let forward = pc + random.between(1, 9);
    let n = match (number, random.below(10)) {
        (op::BRANCH_EQUAL | op::BRANCH_LESS, 0..=6) => forward,
        (op::BRANCH_EQUAL | op::BRANCH_LESS, 7 | 8) => random.below(size),
        (op::SET, 0..=3) => forward,
        (op::SET, 4..=7) => random.below(256),
        (op::ADD..=op::MULTIPLY | op::DIVIDE..=op::REMAINDER | op::SET_PAIR | op::UPCALL, _) => {
            let (c, d) = (source(random), source(random));
            c << 12 | d << 8 | random.below(256)
        }
        _ => random.bits(),
    };
    let a = match number {
        op::STORE..=op::BRANCH_LESS => source(random),
        // For an upcall's ticks too: one without time shows little.
        _ => random.below(16),
    };
    encode(number, a, source(random), n)
}

/// The number of a register to read.
fn source(random: &mut Random) -> u32 {
    if random.chance(ZERO_CHANCE) {
        ZERO_REGISTER as u32
    } else {
        random.below(16)
    }
}

/// The word with such registers for b and for c, if there are any.
pub fn with_operands(
    random: &mut Random,
    machine: &Machine,
    word: u32,
    is_left: impl Fn(Register) -> bool,
    is_right: impl Fn(Register) -> bool,
) -> u32 {
    let i = Instruction(word);
    let b = any_register(random, machine, is_left).unwrap_or(i.b());
    let c = any_register(random, machine, is_right).unwrap_or(i.c());
    word & !(15 << 16 | 15 << 12) | (b as u32) << 16 | (c as u32) << 12
}

/// The number of a register of the wanted kind, if there is one.
fn any_register(
    random: &mut Random,
    machine: &Machine,
    is_wanted: impl Fn(Register) -> bool,
) -> Option<usize> {
    let numbers = 0..machine.registers.len();
    let wanted: Vec<usize> = numbers.filter(|&at| is_wanted(machine.registers[at])).collect();
    (!wanted.is_empty()).then(|| random.pick(&wanted))
}
