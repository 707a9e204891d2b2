//! Drafts: images put together in code and written out as text.
//!
//! The loader's counterpart, for the timing loops, the generator and the tests.

use crate::label::{Label, Pair};
use crate::load::load;
use crate::machine::{Gate, Machine, Register};

/// An image before it is text. A word of memory is, like a register, a value
/// and a label.
#[derive(Clone, Debug)]
pub struct Draft {
    pub error_pc: u32,
    pub pc: u32,
    pub pair: Pair,
    pub limit: u64,
    pub gates: Vec<Gate>,
    pub registers: [Register; 16],
    pub words: Vec<Register>,
}

impl Draft {
    /// An image whose registers and words are all "value 0, label 240".
    pub fn new(size: usize, error_pc: u32, pc: u32, pair: Pair, limit: u64) -> Draft {
        Draft {
            error_pc,
            pc,
            pair,
            limit,
            gates: Vec::new(),
            registers: [Register::UNSET; 16],
            words: vec![Register::UNSET; size],
        }
    }

    /// An image that begins with this code, the error place behind its last
    /// word, all labels the lowest.
    pub fn of_code(code: &[u32], limit: u64) -> Draft {
        let mut draft = Draft::new(code.len(), code.len() as u32, 0, Pair::new(240, 240), limit);
        for (word, &value) in draft.words.iter_mut().zip(code) {
            word.value = value;
        }
        draft
    }

    /// Sets a register's label and value, as an R line does. Register 0 has no R
    /// line: a draft that sets it is refused.
    pub fn register(&mut self, number: usize, label: u8, value: u32) {
        self.registers[number] = Register { value, label: Label(label) };
    }

    /// Sets a word's label and value, as a W line does.
    pub fn word(&mut self, address: usize, label: u8, value: u32) {
        self.words[address] = Register { value, label: Label(label) };
    }

    /// Adds a call gate, as a G line does.
    pub fn gate(&mut self, pc: u32, pc_label: u8, timing_label: u8) {
        self.gates.push(Gate { pc, pair: Pair::new(pc_label, timing_label) });
    }

    /// "`M,size,error place,place,p,t,limit` first; then `G,place,p,t` ...;
    /// `R,number,label,value`; `W,address,label,value`, numbers and addresses
    /// rising." Lines that say nothing new are left out.
    pub fn lines(&self) -> Vec<String> {
        let Draft { error_pc, pc, pair, limit, .. } = self;
        let size = self.words.len();
        let (p, t) = (pair.pc.0, pair.timing.0);
        let mut lines = vec![format!("M,{size},{error_pc},{pc},{p},{t},{limit}")];
        for Gate { pc, pair } in &self.gates {
            lines.push(format!("G,{pc},{},{}", pair.pc.0, pair.timing.0));
        }
        lines.extend(location_lines('R', &self.registers));
        lines.extend(location_lines('W', &self.words));
        lines
    }

    /// The image loaded into memory of just its size.
    pub fn loaded(&self) -> (Machine, Vec<u32>, Vec<u8>) {
        let mut words = vec![0; self.words.len()];
        let mut labels = vec![0; self.words.len()];
        let machine = load(&self.text(), &mut words, &mut labels);
        (machine.expect("a draft's text is accepted"), words, labels)
    }

    /// The lines, each with its LF.
    pub fn text(&self) -> Vec<u8> {
        join_lines(&self.lines())
    }
}

/// The lines of all registers or words that differ from "value 0, label 240".
fn location_lines(letter: char, locations: &[Register]) -> Vec<String> {
    let numbered = locations.iter().enumerate();
    let set = numbered.filter(|(_, location)| **location != Register::UNSET);
    set.map(|(number, Register { value, label })| format!("{letter},{number},{},{value}", label.0))
        .collect()
}

/// "Lines end in LF"
pub fn join_lines(lines: &[String]) -> Vec<u8> {
    let mut text = Vec::new();
    for line in lines {
        text.extend_from_slice(line.as_bytes());
        text.push(b'\n');
    }
    text
}
