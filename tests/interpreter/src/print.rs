//! Printing: the listing of a record and its memory.
//!
//! The listing is put together aside, so that its length is known before the
//! first byte of the output is written.

use crate::label::Label;
use crate::machine::{Call, Machine, Return};
use crate::SHORT_OUTPUT;

/// "Printing gives back the listing's length." The refusals come "7, 6, 8".
pub fn print(
    machine: &Machine,
    words: &[u32],
    labels: &[u8],
    output: &mut [u8],
) -> Result<usize, u8> {
    machine.try_call(words, labels)?;
    write(&listing(machine, words, labels), output)
}

/// "8 is given when the output is shorter than the listing; output beyond the
/// listing stays."
pub(crate) fn write(listing: &str, output: &mut [u8]) -> Result<usize, u8> {
    let bytes = listing.as_bytes();
    let target = output.get_mut(..bytes.len()).ok_or(SHORT_OUTPUT)?;
    target.copy_from_slice(bytes);
    Ok(bytes.len())
}

/// "prints `E,end,why,clock,place,p,t`; `F,kind,place,p,t,end tick` for open
/// calls, older first ...; then R and W lines that differ from value 0, label
/// 240."
fn listing(machine: &Machine, words: &[u32], labels: &[u8]) -> String {
    let registers = machine.registers.iter().map(|register| (register.label, register.value));
    let memory = labels.iter().map(|&label| Label(label)).zip(words.iter().copied());
    end_line(machine)
        + &call_line(machine.first)
        + &call_line(machine.second)
        + &location_lines('R', registers)
        + &location_lines('W', memory.take(machine.size as usize))
}

/// "`E,end,why,clock,place,p,t`"
pub(crate) fn end_line(machine: &Machine) -> String {
    let Machine { end, why, clock, pc, pair, .. } = machine;
    format!("E,{end},{why},{clock},{pc},{},{}\n", pair.pc.0, pair.timing.0)
}

/// "`F,kind,place,p,t,end tick` for open calls, older first (1 gate, end tick
/// 0; 2 upcall)"
pub(crate) fn call_line(call: Call) -> String {
    let (kind, Return { pc, pair }, end_tick) = match call {
        Call::Empty => return String::new(),
        Call::Gate(back) => (1, back, 0),
        Call::Upcall(back, end_tick) => (2, back, end_tick),
    };
    format!("F,{kind},{pc},{},{},{end_tick}\n", pair.pc.0, pair.timing.0)
}

/// The lines of all registers or all words below the size.
fn location_lines(letter: char, locations: impl Iterator<Item = (Label, u32)>) -> String {
    let mut lines = String::new();
    for (number, (label, value)) in locations.enumerate() {
        lines += &location_line(letter, number, label, value);
    }
    lines
}

/// "R and W lines that differ from value 0, label 240"
pub(crate) fn location_line(letter: char, number: usize, label: Label, value: u32) -> String {
    if value == 0 && label == Label::LOWEST {
        return String::new();
    }
    format!("{letter},{number},{},{value}\n", label.0)
}
