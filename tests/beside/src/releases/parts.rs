//! What a relabelling reads of a state: its own word, its source Rb, and the
//! location Ra.

use crate::pairs::seen::State;
use interpreter::instruction::Instruction;
use interpreter::Register;

#[derive(Clone, Copy, Debug, PartialEq, Eq)]
pub enum Part {
    Word,
    Source,
    Location,
}

/// The word at the pc, if that is in memory, whatever its label.
pub fn op_at(state: &State) -> Option<Instruction> {
    state.words.get(state.machine.pc as usize).map(|&word| Instruction(word))
}

/// The part that an op at the pc reads.
pub fn read(state: &State, i: Instruction, part: Part) -> Register {
    match part {
        Part::Word => state.word(state.machine.pc as usize),
        Part::Source => state.machine.registers[i.b()],
        Part::Location => state.machine.registers[i.a()],
    }
}

/// Puts something else there.
pub fn write(state: &mut State, i: Instruction, part: Part, new: Register) {
    let pc = state.machine.pc as usize;
    match part {
        Part::Word => (state.words[pc], state.labels[pc]) = (new.value, new.label.0),
        Part::Source => state.machine.registers[i.b()] = new,
        Part::Location => state.machine.registers[i.a()] = new,
    }
}
