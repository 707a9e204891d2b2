//! First records that are made: well-formed and running, at a plan's op, with any
//! calls open, near the limit and the end tick or far from them.

use super::outsider::Outsider;
use super::plan::Plan;
use crate::pairs::make::any_op;
use crate::pairs::seen::State;
use interpreter::generator::labels::{
    below, invalid_pair, location_label, sound_above, valid_pair,
};
use interpreter::generator::random::Random;
use interpreter::instruction::encode;
use interpreter::machine::{END_TICK_BOUND, MAX_LIMIT, ZERO_REGISTER};
use interpreter::{Call, Label, Machine, Pair, Register, Return};

/// Memory has so many words, at most.
const LARGEST: u32 = 24;

/// Clocks are below this, or so far from the greatest limit.
const EARLY: u32 = 1_000;

/// Numbers of ticks from the clock to the limit or the end tick: those at which an
/// op of 2 ticks is barred, or late, and those at which it just isn't.
const TICKS: [u64; 8] = [0, 1, 2, 2, 3, 3, 4, 60];

/// So many registers can be set: all but register 0, the first.
const SETTABLE: usize = 15;

/// So many pcs of a hundred are outside memory, at its end.
const OUTSIDE: u32 = 7;

/// A record with its memory, and the word of its op, which stands at the pc where
/// that is in memory.
pub fn make(random: &mut Random, outsider: Outsider) -> (State, u32) {
    let plan = Plan::make(random, outsider);
    let mut state = blank(random, plan.pair);
    let settable = &mut state.machine.registers[ZERO_REGISTER + 1..];
    settable.fill_with(|| any_location(random, outsider, plan.pair));
    state.set_words(|_| any_location(random, outsider, plan.pair));
    let word = put_op(random, &plan, &mut state);
    (state, word)
}

/// A record under a pair, all registers and words unset.
fn blank(random: &mut Random, pair: Pair) -> State {
    let size = random.between(1, LARGEST);
    let pc = if random.chance(OUTSIDE) { size + random.below(2) } else { random.below(size) };
    let error_pc = random.below(size + 1);
    let mut machine = Machine::new(size, error_pc, pc, pair, MAX_LIMIT);
    put_clock(random, &mut machine);
    put_calls(random, &mut machine);
    machine.gate_count = random.index(machine.gates.len() + 1);
    for (number, gate) in machine.gates.iter_mut().enumerate() {
        let valid = number < machine.gate_count || random.chance(50);
        gate.pc = random.below(size + 1);
        gate.pair = if valid { valid_pair(random) } else { invalid_pair(random) };
    }
    let length = size as usize;
    State { machine, words: vec![0; length], labels: vec![Label::LOWEST.0; length] }
}

/// A limit far from the clock, or near it.
fn put_clock(random: &mut Random, machine: &mut Machine) {
    let far = u64::from(random.below(EARLY));
    machine.clock = if random.chance(80) { far } else { MAX_LIMIT - far };
    let ticks = if random.chance(60) { MAX_LIMIT } else { random.pick(&TICKS) };
    machine.limit = (machine.clock + ticks).clamp(1, MAX_LIMIT);
}

/// Each of the four shapes as often as the others.
fn put_calls(random: &mut Random, machine: &mut Machine) {
    let gate = Call::Gate(Return { pc: random.below(LARGEST), pair: valid_pair(random) });
    let upcall = upcall(random, machine);
    (machine.first, machine.second) = match random.below(4) {
        0 => (Call::Empty, Call::Empty),
        1 => (gate, Call::Empty),
        2 => (upcall, Call::Empty),
        _ => (gate, upcall),
    };
}

/// An upcall whose "kept labels flow to the current ones", with an end tick far
/// from the clock, or near it.
pub fn upcall(random: &mut Random, machine: &Machine) -> Call {
    let pc = below(random, machine.pair.pc);
    let timing = sound_above(random, pc).meet(machine.pair.timing);
    let kept = if random.chance(30) { machine.pair } else { Pair { pc, timing } };
    let ticks = if random.chance(50) { u64::from(EARLY) } else { random.pick(&TICKS) };
    let end_tick = if random.chance(5) { END_TICK_BOUND - 1 } else { machine.clock + ticks };
    Call::Upcall(Return { pc: random.below(LARGEST), pair: kept }, end_tick)
}

/// A location, often one that isn't trusted.
fn any_location(random: &mut Random, outsider: Outsider, pair: Pair) -> Register {
    let untrusted = random.chance(50);
    let label =
        if untrusted { outsider.untrusted_label(random) } else { location_label(random, pair) };
    let value = match random.below(3) {
        0 => random.below(256),
        1 => any_op(random),
        _ => random.bits(),
    };
    Register { value, label }
}

/// Puts the op at the pc, and its labels. Ra and Rb are not the same, and Rb is
/// register 0 at times where it wants what that holds.
fn put_op(random: &mut Random, plan: &Plan, state: &mut State) -> u32 {
    let State { machine, words, labels } = state;
    let a = 1 + random.index(SETTABLE);
    let b = 1 + (a + random.index(SETTABLE - 1)) % SETTABLE;
    let b = if plan.new == 0 && random.chance(50) { ZERO_REGISTER } else { b };
    machine.registers[a].label = plan.location;
    if b != ZERO_REGISTER {
        machine.registers[b] = Register { value: plan.new, label: plan.source };
    }
    let word = encode(plan.op, a as u32, b as u32, random.bits());
    let pc = machine.pc as usize;
    if pc < words.len() {
        (words[pc], labels[pc]) = (word, plan.word.0);
    }
    word
}
