//! Instruction words: the op numbers, taking a word apart, and putting one
//! together.

/// The numbers in the first column of the op table, and two more of the owner's:
/// "Op 23 gives the unsigned quotient and op 24 the remainder".
pub mod op {
    use std::ops::RangeInclusive;

    pub const SET: u8 = 1;
    pub const ADD: u8 = 2;
    pub const SUBTRACT: u8 = 3;
    pub const AND: u8 = 4;
    pub const OR: u8 = 5;
    pub const XOR: u8 = 6;
    pub const LESS: u8 = 7;
    pub const MULTIPLY: u8 = 8;
    pub const LOAD: u8 = 9;
    pub const STORE: u8 = 10;
    pub const BRANCH_EQUAL: u8 = 11;
    pub const BRANCH_LESS: u8 = 12;
    pub const JUMP: u8 = 13;
    pub const READ_CLOCK: u8 = 14;
    pub const RAISE: u8 = 15;
    pub const RELABEL: u8 = 16;
    pub const SET_PAIR: u8 = 17;
    pub const UPCALL: u8 = 18;
    pub const END_UPCALL: u8 = 19;
    pub const GATE_CALL: u8 = 20;
    pub const GATE_RETURN: u8 = 21;
    pub const HALT: u8 = 22;
    pub const DIVIDE: u8 = 23;
    pub const REMAINDER: u8 = 24;

    /// All of them; every other op is unknown.
    pub const KNOWN: RangeInclusive<u8> = SET..=REMAINDER;

    /// The length of a table by op. No op has the number 0.
    pub const TABLE: usize = REMAINDER as usize + 1;
}

/// "A word is op × 2^24 + a × 2^20 + b × 2^16 + n; c is n's top four bits and d
/// the next four. Unused bits are ignored." The word is kept whole and its
/// fields are cut out where they are used; most ops use few of them.
#[derive(Clone, Copy, Debug, PartialEq, Eq)]
pub struct Instruction(pub u32);

impl Instruction {
    /// "op × 2^24"
    pub fn op(self) -> u8 {
        (self.0 >> 24) as u8
    }

    /// "a × 2^20": a register number, below 16.
    pub fn a(self) -> usize {
        (self.0 >> 20 & 15) as usize
    }

    /// "b × 2^16": a register number, below 16.
    pub fn b(self) -> usize {
        (self.0 >> 16 & 15) as usize
    }

    /// "c is n's top four bits": a register number, below 16.
    pub fn c(self) -> usize {
        (self.0 >> 12 & 15) as usize
    }

    /// "d the next four": a register number, below 16.
    pub fn d(self) -> usize {
        (self.0 >> 8 & 15) as usize
    }

    /// "+ n": the lower half of the word.
    pub fn n(self) -> u32 {
        self.0 & 0xffff
    }
}

/// "A word is op × 2^24 + a × 2^20 + b × 2^16 + n"
pub fn encode(op: u8, a: u32, b: u32, n: u32) -> u32 {
    u32::from(op) << 24 | (a & 15) << 20 | (b & 15) << 16 | n & 0xffff
}

/// "c is n's top four bits and d the next four": a word with four registers.
pub fn encode_registers(op: u8, a: u32, b: u32, c: u32, d: u32) -> u32 {
    encode(op, a, b, (c & 15) << 12 | (d & 15) << 8)
}
