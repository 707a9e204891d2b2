//! The interpreter behind the library's calls: a record is read from its
//! buffer, and written back where the call is carried out.

use crate::calls::{answer, Calls, Memory, Viewer, NO_RECORD, SHORT_BUFFER};
use crate::certificate;
use crate::layout::{at, read, words_of, SPAN};
use interpreter::generator::hex::HexImage;
use interpreter::machine::MAX_GATES;
use interpreter::{load, load_hex, print, print_for, view, Label, Machine, NoView};

/// The interpreter in Rust.
pub struct Other;

/// The record of a buffer, or the refusal: JENNYDUSK_SHORT_BUFFER "where the
/// buffer of the record or the certificate is too short, before it reads
/// anything."
fn record_in(buffer: &[u64]) -> Result<Machine, u64> {
    if buffer.len() < SPAN {
        return Err(SHORT_BUFFER);
    }
    read(buffer).ok_or(NO_RECORD)
}

/// Carries a call out on the record of a buffer. "A refused call leaves the
/// record, certificate, words, labels and output as they were."
fn change(record: &mut [u64], call: impl FnOnce(&mut Machine) -> Result<(), u8>) -> u64 {
    let mut machine = match record_in(record) {
        Ok(machine) => machine,
        Err(number) => return number,
    };
    match call(&mut machine) {
        Ok(()) => {
            record[..SPAN].copy_from_slice(&words_of(&machine));
            0
        }
        Err(number) => number.into(),
    }
}

/// Writes a loaded record into its buffer. "A load sets the words of the gates that
/// no line names to 0."
fn write_loaded(machine: &Machine, record: &mut [u64]) {
    record[..SPAN].copy_from_slice(&words_of(machine));
    record[at::gate(machine.gate_count)..at::gate(MAX_GATES)].fill(0);
}

/// Lists the record of a buffer: 0 and 256 times the length, or the refusal.
fn list(record: &[u64], call: impl FnOnce(&Machine) -> Result<usize, u8>) -> u64 {
    let machine = match record_in(record) {
        Ok(machine) => machine,
        Err(number) => return number,
    };
    match call(&machine) {
        Ok(length) => answer(0, length as u64),
        Err(number) => number.into(),
    }
}

impl Calls for Other {
    /// Answers a number, 0 to 6, 9, 13 or 255, and 256 times the line that was
    /// refused.
    fn load(&self, text: &[u8], words: &mut [u32], labels: &mut [u8], record: &mut [u64]) -> u64 {
        if record.len() < SPAN {
            return SHORT_BUFFER;
        }
        match load(text, words, labels) {
            Ok(machine) => {
                write_loaded(&machine, record);
                0
            }
            Err(refusal) => answer(refusal.number.into(), refusal.line),
        }
    }

    /// Answers a number alone, 0 to 6, 11, 12 or 255. The line that was refused
    /// goes to a word of its own, 0 where none was; at 255 that word is left.
    fn load_hex(
        &self,
        image: &HexImage,
        memory: Memory,
        record: &mut [u64],
        line: &mut u64,
    ) -> u64 {
        if record.len() < SPAN {
            return SHORT_BUFFER;
        }
        let HexImage { text, hex, label } = image;
        let (number, refused) = match load_hex(text, hex, *label, memory.words, memory.labels) {
            Ok(machine) => {
                write_loaded(&machine, record);
                (0, 0)
            }
            Err(refusal) => (refusal.number, refusal.line),
        };
        *line = refused;
        number.into()
    }

    /// "Does one step. Answers 0, 6, 7 or 255. An ended record steps to itself."
    fn step(&self, record: &mut [u64], words: &mut [u32], labels: &mut [u8]) -> u64 {
        change(record, |machine| machine.step(words, labels))
    }

    /// "Steps until the end isn't 0. Answers 0, 6, 7 or 255."
    fn run(&self, record: &mut [u64], words: &mut [u32], labels: &mut [u8]) -> u64 {
        change(record, |machine| machine.run(words, labels))
    }

    /// Does every step that finishes at or before the tick and none that finishes
    /// later. Answers as a run does.
    fn run_to(&self, record: &mut [u64], words: &mut [u32], labels: &mut [u8], tick: u64) -> u64 {
        change(record, |machine| machine.run_to(words, labels, tick))
    }

    /// "Answers 0 and 256 times the listing's length, or 6, 7, 8 or 255."
    fn print(&self, record: &[u64], words: &[u32], labels: &[u8], output: &mut [u8]) -> u64 {
        list(record, |machine| print(machine, words, labels, output))
    }

    /// Lists what a label sees. Answers as a print does.
    fn print_for(
        &self,
        record: &[u64],
        words: &[u32],
        labels: &[u8],
        label: u8,
        output: &mut [u8],
    ) -> u64 {
        list(record, |machine| print_for(machine, words, labels, Label(label), output))
    }

    /// Answers the number, and 256 times the line that was refused, the limit at
    /// 10, or the listing's length.
    fn view(&self, text: &[u8], viewer: Viewer, memory: Memory, output: &mut [u8]) -> u64 {
        let (Viewer { label, tick }, Memory { words, labels }) = (viewer, memory);
        match view(text, label, tick, words, labels, output) {
            Ok(length) => answer(0, length as u64),
            Err(NoView { number, value }) => answer(number.into(), value),
        }
    }

    /// "Certifies a text at one label: loads it, and runs it to its end. The
    /// certificate goes to its buffer; words and labels hold what the run leaves."
    /// Answers as a load does.
    fn certify(
        &self,
        label: u8,
        text: &[u8],
        words: &mut [u32],
        labels: &mut [u8],
        certificate: &mut [u64],
    ) -> u64 {
        if certificate.len() < certificate::SPAN {
            return SHORT_BUFFER;
        }
        let mut machine = match load(text, words, labels) {
            Ok(machine) => machine,
            Err(refusal) => return answer(refusal.number.into(), refusal.line),
        };
        let found = machine.certify(Label(label), words, labels).expect("a loaded record is fit");
        certificate[..certificate::SPAN].copy_from_slice(&certificate::words_of(found));
        0
    }
}
