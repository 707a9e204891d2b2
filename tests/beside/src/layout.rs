//! The record in a buffer, read and written as `include/jennydusk.h` tells it.

use interpreter::machine::MAX_GATES;
use interpreter::{Call, Gate, Label, Machine, Pair, Register, Return};

/// JENNYDUSK_SPAN: "a buffer of at least so many words, one number a word".
pub const SPAN: usize = 76;

/// The places of the record's numbers.
pub mod at {
    pub const SIZE: usize = 0;
    pub const LIMIT: usize = 1;
    pub const ERROR_PC: usize = 2;
    pub const GATE_COUNT: usize = 3;
    pub const PC: usize = 28;
    pub const PC_LABEL: usize = 29;
    pub const TIMING_LABEL: usize = 30;
    pub const CLOCK: usize = 31;
    pub const END: usize = 42;
    pub const WHY: usize = 43;

    /// "gate k, 0 to 7: its entry, pc label and timing label"
    pub const fn gate(k: usize) -> usize {
        4 + 3 * k
    }

    /// "open call k, 0 or 1, the older first: five words"
    pub const fn call(k: usize) -> usize {
        32 + 5 * k
    }

    /// "the value of register k, 0 to 15"
    pub const fn value(k: usize) -> usize {
        44 + k
    }

    /// "its label"
    pub const fn label(k: usize) -> usize {
        60 + k
    }
}

/// A number of 32 bits; a larger one is "a word outside its field's range".
fn word(number: u64) -> Option<u32> {
    u32::try_from(number).ok()
}

/// A number of 8 bits; a larger one is "a word outside its field's range".
fn byte(number: u64) -> Option<u8> {
    u8::try_from(number).ok()
}

/// Two words of 8 bits: "pc label and timing label".
fn pair(words: &[u64]) -> Option<Pair> {
    Some(Pair::new(byte(words[0])?, byte(words[1])?))
}

/// "gate k, 0 to 7: its entry, pc label and timing label"
fn gate(words: &[u64]) -> Option<Gate> {
    Some(Gate { pc: word(words[0])?, pair: pair(&words[1..])? })
}

/// "The five words of an open call ... are 0 where a call of its kind keeps
/// nothing", and no call's words where they are something else.
fn call(words: &[u64]) -> Option<Call> {
    let back = Return { pc: word(words[1])?, pair: pair(&words[2..])? };
    match (words[0], words[4]) {
        (0, _) if words[1..5] == [0; 4] => Some(Call::Empty),
        (1, 0) => Some(Call::Gate(back)),
        (2, end_tick) => Some(Call::Upcall(back, end_tick)),
        _ => None,
    }
}

/// The record that a buffer holds. It holds none when it is too short, or "a word
/// is outside its field's range, or a call's words are none".
pub fn read(buffer: &[u64]) -> Option<Machine> {
    let words = buffer.get(..SPAN)?;
    let pair = pair(&words[at::PC_LABEL..])?;
    let (size, pc) = (word(words[at::SIZE])?, word(words[at::PC])?);
    let error_pc = word(words[at::ERROR_PC])?;
    let mut machine = Machine::new(size, error_pc, pc, pair, word(words[at::LIMIT])?.into());
    machine.gate_count = word(words[at::GATE_COUNT])? as usize;
    machine.clock = word(words[at::CLOCK])?.into();
    machine.first = call(&words[at::call(0)..])?;
    machine.second = call(&words[at::call(1)..])?;
    machine.end = byte(words[at::END])?;
    machine.why = byte(words[at::WHY])?;
    read_gates(&mut machine, words)?;
    read_registers(&mut machine, words)?;
    Some(machine)
}

/// All eight gates have their words, also those behind the count.
fn read_gates(machine: &mut Machine, words: &[u64]) -> Option<()> {
    for k in 0..MAX_GATES {
        machine.gates[k] = gate(&words[at::gate(k)..])?;
    }
    Some(())
}

/// "the value of register k, 0 to 15", and "its label"
fn read_registers(machine: &mut Machine, words: &[u64]) -> Option<()> {
    for (k, register) in machine.registers.iter_mut().enumerate() {
        let label = Label(byte(words[at::label(k)])?);
        *register = Register { value: word(words[at::value(k)])?, label };
    }
    Some(())
}

/// The five words of a call, "0 where a call of its kind keeps nothing".
fn call_words(call: Call) -> [u64; 5] {
    let (kind, Return { pc, pair }, end_tick) = match call {
        Call::Empty => return [0; 5],
        Call::Gate(back) => (1, back, 0),
        Call::Upcall(back, end_tick) => (2, back, end_tick),
    };
    [kind, pc.into(), pair.pc.0.into(), pair.timing.0.into(), end_tick]
}

/// The words of a record.
pub fn words_of(machine: &Machine) -> [u64; SPAN] {
    let mut words = [0; SPAN];
    words[at::SIZE] = machine.size.into();
    words[at::LIMIT] = machine.limit;
    words[at::ERROR_PC] = machine.error_pc.into();
    words[at::GATE_COUNT] = machine.gate_count as u64;
    words[at::PC] = machine.pc.into();
    words[at::PC_LABEL] = machine.pair.pc.0.into();
    words[at::TIMING_LABEL] = machine.pair.timing.0.into();
    words[at::CLOCK] = machine.clock;
    words[at::call(0)..at::call(1)].copy_from_slice(&call_words(machine.first));
    words[at::call(1)..at::END].copy_from_slice(&call_words(machine.second));
    words[at::END] = machine.end.into();
    words[at::WHY] = machine.why.into();
    write_gates(machine, &mut words);
    write_registers(machine, &mut words);
    words
}

/// "gate k, 0 to 7: its entry, pc label and timing label"
fn write_gates(machine: &Machine, words: &mut [u64]) {
    for (k, Gate { pc, pair }) in machine.gates.iter().enumerate() {
        let numbers = [u64::from(*pc), pair.pc.0.into(), pair.timing.0.into()];
        words[at::gate(k)..at::gate(k + 1)].copy_from_slice(&numbers);
    }
}

/// "the value of register k, 0 to 15", and "its label"
fn write_registers(machine: &Machine, words: &mut [u64]) {
    for (k, Register { value, label }) in machine.registers.iter().enumerate() {
        words[at::value(k)] = u64::from(*value);
        words[at::label(k)] = label.0.into();
    }
}

/// What a word of the record is, for a reader.
pub fn word_name(word: usize) -> String {
    let call = ["kind", "return pc", "pc label", "timing label", "end tick"];
    let gate = ["entry", "pc label", "timing label"];
    match word {
        at::SIZE => "size".to_string(),
        at::LIMIT => "limit".to_string(),
        at::ERROR_PC => "error pc".to_string(),
        at::GATE_COUNT => "number of gates".to_string(),
        4..=27 => format!("gate {}, {}", (word - 4) / 3, gate[(word - 4) % 3]),
        at::PC => "pc".to_string(),
        at::PC_LABEL => "pc label".to_string(),
        at::TIMING_LABEL => "timing label".to_string(),
        at::CLOCK => "clock".to_string(),
        32..=41 => format!("call {}, {}", (word - 32) / 5, call[(word - 32) % 5]),
        at::END => "end".to_string(),
        at::WHY => "why".to_string(),
        44..=59 => format!("value of register {}", word - 44),
        60..=75 => format!("label of register {}", word - 60),
        _ => "behind the record".to_string(),
    }
}
