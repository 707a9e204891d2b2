//! The programs' work: from an image's text to its listing, at the end or at a
//! tick.

use crate::hex::load_hex;
use crate::label::Label;
use crate::load::{load, Refusal};
use crate::machine::{Machine, MAX_SIZE};
use crate::print::print;
use crate::view::{view, NoView};

/// The longest listing has an E line, two F lines, 15 R lines (register 0 has
/// none) and 2,048 W lines of at most 22 bytes; this is more.
const OUTPUT: usize = 65_536;

/// Memory of the greatest size.
struct Memory {
    words: Vec<u32>,
    labels: Vec<u8>,
}

impl Memory {
    fn new() -> Memory {
        Memory { words: vec![0; MAX_SIZE as usize], labels: vec![0; MAX_SIZE as usize] }
    }
}

/// "Program `firing` ... runs to the end and prints" the listing, or the X line.
pub fn fire(text: &[u8]) -> Vec<u8> {
    let mut memory = Memory::new();
    let loaded = load(text, &mut memory.words, &mut memory.labels);
    fire_loaded(loaded, memory)
}

/// The same for an image from HEX: an M text, the text of the records, and the
/// label of what they give.
pub fn fire_hex(text: &[u8], hex: &[u8], label: Label) -> Vec<u8> {
    let mut memory = Memory::new();
    let loaded = load_hex(text, hex, label, &mut memory.words, &mut memory.labels);
    fire_loaded(loaded, memory)
}

/// Once loaded, the record is fit and the memory and the output are long enough,
/// so no later refusal comes up; were it otherwise, it would be shown with line
/// 0.
fn fire_loaded(loaded: Result<Machine, Refusal>, memory: Memory) -> Vec<u8> {
    let Memory { mut words, labels } = memory;
    let mut machine = match loaded {
        Ok(machine) => machine,
        Err(refusal) => return refusal_line(refusal.number, refusal.line),
    };
    let mut output = vec![0; OUTPUT];
    let printed = machine
        .run(&mut words, &labels)
        .and_then(|()| print(&machine, &words, &labels, &mut output));
    match printed {
        Ok(length) => {
            output.truncate(length);
            output
        }
        Err(number) => refusal_line(number, 0),
    }
}

/// "Given an image, a viewer's label and a tick, run to that tick and list what
/// the label sees": what a program prints that does so, or the X line, at 10
/// "with the limit". The memory and the output are long enough here too.
pub fn fire_for(text: &[u8], viewer: Label, tick: u64) -> Vec<u8> {
    let Memory { mut words, mut labels } = Memory::new();
    let mut output = vec![0; OUTPUT];
    match view(text, viewer, tick, &mut words, &mut labels, &mut output) {
        Ok(length) => {
            output.truncate(length);
            output
        }
        Err(NoView { number, value }) => refusal_line(number, value),
    }
}

/// "In the program a refusal prints `X,number,line`."
fn refusal_line(number: u8, line: u64) -> Vec<u8> {
    format!("X,{number},{line}\n").into_bytes()
}
