//! What the tests share: a loaded machine with its memory, and short ways to
//! put images together.

#![allow(dead_code)] // Each test program uses a part of it.

use interpreter::draft::Draft;
use interpreter::instruction::{encode, encode_registers, op};
use interpreter::{load, print, Machine, Pair, Refusal};

/// A machine and the memory lent to it.
#[derive(Clone, Debug, PartialEq, Eq)]
pub struct Loaded {
    pub machine: Machine,
    pub words: Vec<u32>,
    pub labels: Vec<u8>,
}

impl Loaded {
    pub fn of_text(text: &str) -> Result<Loaded, Refusal> {
        let mut words = vec![0; 2_048];
        let mut labels = vec![0; 2_048];
        let machine = load(text.as_bytes(), &mut words, &mut labels)?;
        Ok(Loaded { machine, words, labels })
    }

    pub fn of(draft: &Draft) -> Loaded {
        let text = String::from_utf8(draft.text()).unwrap();
        Loaded::of_text(&text).unwrap()
    }

    pub fn try_step(&mut self) -> Result<(), u8> {
        self.machine.step(&mut self.words, &self.labels)
    }

    pub fn steps(&mut self, count: u32) {
        for _ in 0..count {
            self.try_step().unwrap();
        }
    }

    pub fn run(&mut self) {
        self.machine.run(&mut self.words, &self.labels).unwrap();
    }

    pub fn value(&self, register: usize) -> u32 {
        self.machine.registers[register].value
    }

    pub fn listing(&self) -> String {
        let mut output = vec![0; 65_536];
        let length = print(&self.machine, &self.words, &self.labels, &mut output).unwrap();
        String::from_utf8(output[..length].to_vec()).unwrap()
    }
}

/// What the program `firing` prints for a text.
pub fn fire(text: &str) -> String {
    match Loaded::of_text(text) {
        Ok(mut loaded) => {
            loaded.run();
            loaded.listing()
        }
        Err(Refusal { number, line }) => format!("X,{number},{line}\n"),
    }
}

/// The refusal of a text, as number and line.
pub fn refusal(text: &str) -> (u8, u64) {
    match Loaded::of_text(text) {
        Ok(_) => (0, 0),
        Err(Refusal { number, line }) => (number, line),
    }
}

/// A machine of 32 words with this code, error pc 31, limit 1,000, all 240.
pub fn plain(code: &[u32]) -> Draft {
    let mut draft = Draft::new(32, 31, 0, Pair::new(240, 240), 1_000);
    for (address, &word) in code.iter().enumerate() {
        draft.word(address, 240, word);
    }
    draft
}

/// The same, with an upcall of so many ticks at place 0 and this code in it.
/// It runs under (255, 255) and returns to place 30, which halts. The upcall is
/// open at clock 2, so its end tick is the time + 2.
pub fn in_upcall(time: u32, code: &[u32]) -> Draft {
    let mut draft = plain(&[encode_registers(op::UPCALL, 1, 2, 3, 4)]);
    for (address, &word) in code.iter().enumerate() {
        draft.word(address + 1, 240, word);
    }
    draft.register(1, 240, time);
    draft.register(2, 240, 255);
    draft.register(3, 240, 255);
    draft.register(4, 240, 30);
    draft.register(15, 255, 0);
    draft.word(30, 240, encode(op::HALT, 0, 0, 0));
    draft
}

/// The same, with a gate call at place 0 that leads to this code at place 1,
/// under the given labels. The call keeps the pair (255, 255) and place 1.
pub fn in_gate(pair: Pair, code: &[u32]) -> Draft {
    let mut draft = plain(&[encode(op::GATE_CALL, 0, 1, 0)]);
    for (address, &word) in code.iter().enumerate() {
        draft.word(address + 8, 240, word);
    }
    draft.pair = Pair::new(255, 255);
    draft.gate(8, pair.pc.0, pair.timing.0);
    draft
}
