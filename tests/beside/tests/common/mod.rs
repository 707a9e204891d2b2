//! What the tests of counted ops share: an op on hidden operands, and one step of it.

use beside::pairs::seen::State;
use beside::pairs::trace::Trace;
use interpreter::draft::Draft;
use interpreter::instruction::encode_registers;
use interpreter::Label;

/// The level of all these: what is labelled 240 is seen, 255 is not.
pub const LEVEL: Label = Label(240);

/// All that is tried ends before it.
pub const BOUND: u64 = 1_000;

/// The op of that number on R2 and R3, into R1; all three are hidden.
pub fn on_hidden(number: u8, left: u32, right: u32) -> Draft {
    let mut draft = Draft::of_code(&[encode_registers(number, 1, 2, 3, 0)], 100);
    draft.register(1, 255, 77);
    draft.register(2, 255, left);
    draft.register(3, 255, right);
    draft
}

/// The loaded state and the one after a step.
pub fn trace(draft: &Draft) -> Trace {
    let (mut machine, mut words, labels) = draft.loaded();
    let before = State { machine: machine.clone(), words: words.clone(), labels: labels.clone() };
    machine.step(&mut words, &labels).unwrap();
    Trace { states: vec![before, State { machine, words, labels }] }
}
