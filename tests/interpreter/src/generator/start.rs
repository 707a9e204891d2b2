//! The image before its program: its labels, gates and registers, laid out so
//! that the ops find what they need.

use super::division::NEGATIVE;
use super::labels;
use super::multiply::factor;
use super::random::Random;
use super::words::any_word;
use crate::draft::Draft;
use crate::label::{Label, Pair};
use crate::machine::{MAX_SIZE, ZERO_REGISTER};
use crate::step::DIVISION_TICKS;
use std::ops::Range;

/// "register 15 gets the cause"
const STATUS: usize = 15;

/// The registers that hold what ops need: all between register 0 and the one for
/// causes.
const TOOLS: Range<usize> = ZERO_REGISTER + 1..STATUS;

/// The most ticks that an upcall gets which is to end: enough for two divisions
/// and something between them.
pub const LONGEST_UPCALL: u32 = 80;

/// In so many of a hundred images with gates the number of one stands in a
/// register that is hidden from the pc label.
const HIDDEN_GATE_CHANCE: u32 = 20;

/// In so many of a hundred images all runs under the lowest labels, and nothing
/// but its number keeps register 0 from being written.
const LOWEST_CHANCE: u32 = 15;

/// The image before its program: labels, registers and gates.
pub fn start_draft(random: &mut Random) -> Draft {
    let size = match random.weighted(&[72, 15, 7, 5, 1]) {
        0 => random.between(24, 96),
        1 => random.between(5, 24),
        2 => random.between(1, 4),
        3 => random.between(97, 250),
        _ => MAX_SIZE,
    };
    let is_lowest = random.chance(LOWEST_CHANCE);
    let lowest = Pair { pc: Label::LOWEST, timing: Label::LOWEST };
    let pair = if is_lowest { lowest } else { labels::valid_pair(random) };
    // The error pc is mostly behind the program, so that a failed fetch leads on
    // to new words and not round in a circle.
    let error_pc = if random.chance(60) { size - 1 - size / 4 } else { place(random, size) };
    let pc = match random.below(20) {
        0 => place(random, size),
        1 => error_pc,
        _ => random.below(size.div_ceil(8)),
    };
    let limit = u64::from(random.between(60, 500));
    let mut draft = Draft::new(size as usize, error_pc, pc, pair, limit);
    let high = if is_lowest { lowest } else { higher_pair(random, pair) };
    add_gates(random, &mut draft);
    set_registers(random, &mut draft, high);
    if random.chance(85) {
        lay_out_tools(random, &mut draft, high);
    }
    for word in &mut draft.words {
        let near = if random.chance(30) { high } else { pair };
        word.label = labels::location_label(random, near);
    }
    draft
}

/// Registers near the labels of the machine and of an upcall from it. Register 0
/// can't be set.
fn set_registers(random: &mut Random, draft: &mut Draft, high: Pair) {
    for number in ZERO_REGISTER + 1..draft.registers.len() {
        let near = if random.chance(30) { high } else { draft.pair };
        let label = labels::location_label(random, near);
        let value = register_value(random, draft);
        draft.register(number, label.0, value);
    }
}

/// A valid pair that an upcall from this one can take.
fn higher_pair(random: &mut Random, pair: Pair) -> Pair {
    let pc = labels::sound_above(random, pair.timing);
    Pair { pc, timing: labels::sound_above(random, pc) }
}

/// Puts into registers of low labels what upcalls, gate calls, op 17, divisions
/// and a program that rewrites itself need, into the others factors, and gives
/// register 15 a label at which causes mostly arrive.
fn lay_out_tools(random: &mut Random, draft: &mut Draft, high: Pair) {
    let size = draft.words.len() as u32;
    let higher = higher_pair(random, high);
    let time = match random.below(20) {
        0 => u32::MAX,
        1..=5 => random.below(5),
        // A division takes up all of it, or a tick too many.
        6..=9 => DIVISION_TICKS as u32 - random.below(2),
        _ => random.between(5, LONGEST_UPCALL),
    };
    let back = random.between(size / 2, size - 1);
    let gate = random.below(draft.gates.len() as u32 + 1);
    let (target, code) = (random.between(size / 4, size - 1), any_word(random, size));
    let (dividend, divisor) =
        (NEGATIVE | random.bits(), random.pick(&[1, 1, 2, 3, 1_000, u32::MAX]));
    let labels = [high.pc, high.timing, higher.pc, higher.timing, draft.pair.pc];
    let labels = labels.map(|label| u32::from(label.0));
    let values = [time, back, gate, target, code, dividend, divisor];
    let tools: Vec<u32> = values.into_iter().chain(labels).collect();
    set_tools(random, draft, &tools);
    if !draft.gates.is_empty() && random.chance(HIDDEN_GATE_CHANCE) {
        let label = labels::not_below(random, draft.pair.pc);
        let number = random.between(TOOLS.start as u32, TOOLS.end as u32 - 1);
        draft.register(number as usize, label.0, random.below(draft.gates.len() as u32));
    }
    draft.registers[STATUS].label = match random.below(10) {
        0..=2 => high.timing,
        3..=5 => labels::above(random, high.timing),
        6 => higher.timing,
        _ => draft.registers[STATUS].label,
    };
}

/// Gives the tools to registers that follow one another. What is left gets factors
/// for op 8 and keeps its labels, so that these are in sight or hidden.
fn set_tools(random: &mut Random, draft: &mut Draft, tools: &[u32]) {
    let first = random.index(TOOLS.len());
    for offset in 0..TOOLS.len() {
        let number = TOOLS.start + (first + offset) % TOOLS.len();
        let Some(&value) = tools.get(offset) else {
            draft.registers[number].value = factor(random);
            continue;
        };
        let label = if random.chance(75) { Label::LOWEST } else { draft.pair.pc };
        draft.register(number, label.0, value);
    }
}

/// A place, mostly in memory, now and then just behind it or anywhere.
fn place(random: &mut Random, size: u32) -> u32 {
    match random.below(20) {
        0 => size,
        1 => random.bits(),
        _ => random.below(size),
    }
}

/// Gates that can mostly be called: their labels flow to the pc label. The pairs
/// of the others are valid too: they lie above it, in one label or in both.
fn add_gates(random: &mut Random, draft: &mut Draft) {
    let size = draft.words.len() as u32;
    let pair = draft.pair;
    for _ in 0..random.pick(&[0, 1, 2, 2, 3, 3, 4, 8]) {
        let timing = labels::below(random, pair.pc);
        let gate = match random.below(12) {
            0 | 1 => labels::valid_pair(random),
            // Neither label flows to the pc label, unless it is that one.
            2 | 3 => higher_pair(random, pair),
            // The timing label flows to the timing label, perhaps not to the pc label.
            4 | 5 => Pair { pc: labels::below(random, pair.pc), timing: pair.timing },
            _ => Pair { pc: labels::below(random, timing), timing },
        };
        draft.gate(place(random, size), gate.pc.0, gate.timing.0);
    }
}

/// A value that some op has a use for.
fn register_value(random: &mut Random, draft: &Draft) -> u32 {
    let size = draft.words.len() as u32;
    let gates = draft.gates.len() as u32;
    match random.weighted(&[34, 14, 20, 8, 12, 6, 4, 2]) {
        0 => u32::from(labels::label_value(random, draft.pair).0),
        1 => random.below(30),
        2 => random.below(size),
        3 => random.below(gates + 1),
        4 => any_word(random, size),
        5 => random.pick(&[u32::MAX, 1 << 31, (1 << 31) - 1, 1 << 16, 0]),
        6 => random.between(1, 3) << 8 | u32::from(labels::label_value(random, draft.pair).0),
        _ => random.bits(),
    }
}
