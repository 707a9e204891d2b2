//! The ops: one table of their numbers, names, operands and ticks, and what
//! follows from it: a word from its op and operands, and an op read back.
//!
//! A word is op × 2^24 + a × 2^20 + b × 2^16 + n; c is n's top four bits and d
//! the next four.

use crate::library::{REGISTERS, ZERO_REGISTER};

/// One op. `operands` says how a source writes them: `a`, `b`, `c` and `d` are
/// registers, `n` a number, `place` a number that is a place; all else stands
/// as it is.
#[derive(Debug, PartialEq, Eq)]
pub struct Op {
    pub number: u8,
    pub name: &'static str,
    pub operands: &'static str,
    pub ticks: &'static str,
}

/// All ops. `lt` and `blt` compare without sign, and `div` and `rem` divide
/// without it, as all numbers have none.
pub const OPS: &[Op] = &[
    op(1, "set", "a, n", "1"),
    op(2, "add", "a, b, c", "1"),
    op(3, "sub", "a, b, c", "1"),
    op(4, "and", "a, b, c", "1"),
    op(5, "or", "a, b, c", "1"),
    op(6, "xor", "a, b, c", "1"),
    op(7, "lt", "a, b, c", "1"),
    op(8, "mul", "a, b, c", "2-10"),
    op(9, "load", "a, [b]", "3"),
    op(10, "store", "a, [b]", "3"),
    op(11, "beq", "a, b, place", "1"),
    op(12, "blt", "a, b, place", "1"),
    op(13, "jump", "b", "1"),
    op(14, "clock", "a", "1"),
    op(15, "raise", "a, b", "2"),
    op(16, "relabel", "a, b", "2"),
    op(17, "pair", "b c", "2"),
    op(18, "upcall", "ticks a, pair b c, back d", "2"),
    op(19, "endup", "", "to end"),
    op(20, "gate", "b", "4"),
    op(21, "return", "", "4"),
    op(22, "halt", "", "1"),
    op(23, "div", "a, b, c", "34"),
    op(24, "rem", "a, b, c", "34"),
];

const fn op(number: u8, name: &'static str, operands: &'static str, ticks: &'static str) -> Op {
    Op { number, name, operands, ticks }
}

const OP_SHIFT: u32 = 24;
const REGISTER_MASK: u32 = 15;
/// The greatest n.
pub const GREATEST_N: u32 = 65_535;

/// One piece of an op's operands.
#[derive(Clone, Copy, Debug, PartialEq, Eq)]
pub enum Piece {
    /// A register, by its field's lowest bit.
    Register(u32),
    Number,
    Place,
    /// What stands there for the reader alone: a word, a comma, a bracket.
    Mark(&'static str),
}

impl Piece {
    fn of(text: &'static str) -> Piece {
        match text {
            "a" => Piece::Register(20),
            "b" => Piece::Register(16),
            "c" => Piece::Register(12),
            "d" => Piece::Register(8),
            "n" => Piece::Number,
            "place" => Piece::Place,
            mark => Piece::Mark(mark),
        }
    }

    /// The bits of a word that the piece's value takes, for a value.
    pub fn encode(self, value: u32) -> u32 {
        match self {
            Piece::Register(shift) => (value & REGISTER_MASK) << shift,
            Piece::Number | Piece::Place => value & GREATEST_N,
            Piece::Mark(_) => 0,
        }
    }

    /// The piece's value in a word.
    fn decode(self, word: u32) -> u32 {
        match self {
            Piece::Register(shift) => word >> shift & REGISTER_MASK,
            Piece::Number | Piece::Place => word & GREATEST_N,
            Piece::Mark(_) => 0,
        }
    }
}

impl Op {
    /// The op of a word, if it has one.
    pub fn of(word: u32) -> Option<&'static Op> {
        OPS.iter().find(|op| u32::from(op.number) == word >> OP_SHIFT)
    }

    pub fn named(name: &str) -> Option<&'static Op> {
        OPS.iter().find(|op| op.name == name)
    }

    /// The op's operands, piece by piece.
    pub fn pieces(&self) -> impl Iterator<Item = Piece> {
        split(self.operands).into_iter().filter(|text| *text != " ").map(Piece::of)
    }

    /// The word of the op with nothing in its operands.
    pub fn bare(&self) -> u32 {
        u32::from(self.number) << OP_SHIFT
    }

    /// How a source writes the op: `load Ra, [Rb]`.
    pub fn pattern(&self) -> String {
        let operand = |text| match Piece::of(text) {
            Piece::Register(_) => format!("R{text}"),
            _ => text.to_string(),
        };
        self.with_operands(operand)
    }

    /// The op as a source has it, with the operands of a word; `place` writes
    /// a place.
    pub fn written(&self, word: u32, place: impl Fn(u32) -> String) -> String {
        let operand = |text| match Piece::of(text) {
            piece @ Piece::Register(_) => format!("R{}", piece.decode(word)),
            piece @ Piece::Number => piece.decode(word).to_string(),
            piece @ Piece::Place => place(piece.decode(word)),
            Piece::Mark(mark) => mark.to_string(),
        };
        self.with_operands(operand)
    }

    fn with_operands(&self, operand: impl Fn(&'static str) -> String) -> String {
        let operands: String = split(self.operands).into_iter().map(operand).collect();
        format!("{} {operands}", self.name).trim_end().to_string()
    }
}

/// Takes the text of operands apart, into words and single other characters.
fn split(operands: &'static str) -> Vec<&'static str> {
    let mut parts = Vec::new();
    let mut rest = operands;
    while !rest.is_empty() {
        let letters = rest.find(|letter: char| !letter.is_ascii_alphabetic()).unwrap_or(rest.len());
        let (part, behind) = rest.split_at(letters.max(1));
        parts.push(part);
        rest = behind;
    }
    parts
}

/// The fields of a word. Unlike c and d, n overlaps with others.
#[derive(Clone, Copy, Debug, PartialEq, Eq)]
pub struct Fields {
    pub op: u8,
    pub a: usize,
    pub b: usize,
    pub c: usize,
    pub d: usize,
    pub n: u32,
}

pub fn fields(word: u32) -> Fields {
    let register = |name| Piece::of(name).decode(word) as usize;
    Fields {
        op: (word >> OP_SHIFT) as u8,
        a: register("a"),
        b: register("b"),
        c: register("c"),
        d: register("d"),
        n: Piece::Number.decode(word),
    }
}

/// The same word with another register as a.
pub fn with_a(word: u32, register: usize) -> u32 {
    let a = Piece::of("a");
    word - a.encode(a.decode(word)) + a.encode(register as u32)
}

/// A register that a word doesn't name, whatever its op. It isn't register 0,
/// which can't hold what one likes.
pub fn unnamed_register(word: u32) -> usize {
    let Fields { a, b, c, d, .. } = fields(word);
    let mut others = (ZERO_REGISTER + 1..REGISTERS).filter(|other| ![a, b, c, d].contains(other));
    others.next().expect("a word names four registers at most")
}

/// The register that a word's op is to write or to relabel, if there is one. The
/// other ops that have a register a read it.
pub fn destination(word: u32) -> Option<usize> {
    let Fields { op, a, .. } = fields(word);
    matches!(op, 1..=9 | 14..=16 | 23..=24).then_some(a)
}

/// The place of a word's op, if its op has one: of the branches.
pub fn target(word: u32) -> Option<u32> {
    let op = Op::of(word)?;
    op.pieces().find(|piece| *piece == Piece::Place).map(|piece| piece.decode(word))
}

/// Whether a word is its op's own: no bit is set that the op doesn't use.
pub fn is_exact(word: u32) -> bool {
    let used = |op: &Op| op.pieces().map(|piece| piece.encode(piece.decode(word))).sum::<u32>();
    Op::of(word).is_some_and(|op| op.bare() + used(op) == word)
}

/// A word as an op with its operands, unused bits left out; or as data.
pub fn in_words(word: u32) -> String {
    match Op::of(word) {
        Some(op) => op.written(word, |place| place.to_string()),
        None => format!(".word {word}"),
    }
}

#[cfg(test)]
mod tests {
    use super::*;
    use crate::library::{Machine, WHY_OP};

    /// A machine that has done one step: this word, at its error place.
    fn stepped(word: u32) -> Machine {
        let text = format!("M,1,0,0,240,240,100\nW,0,240,{word}\n");
        let mut machine = Machine::load(text.as_bytes()).expect("an image");
        machine.step();
        machine
    }

    #[test]
    fn the_machine_knows_the_same_ops() {
        for number in 0..=u8::MAX {
            let word = u32::from(number) << OP_SHIFT;
            assert_eq!(stepped(word).why() == WHY_OP, Op::of(word).is_none(), "{number}");
        }
    }

    /// Op 8 takes its fewest ticks here, and op 19 its ticks outside an upcall.
    #[test]
    fn the_machine_takes_the_same_ticks() {
        for op in OPS {
            let fewest = op.ticks.split('-').next().and_then(|ticks| ticks.parse().ok());
            assert_eq!(stepped(op.bare()).clock(), fewest.unwrap_or(1), "{}", op.name);
        }
    }

    /// Whether the machine changes register a by an op of the registers a, R2 and
    /// R3, where its check passes and it writes or relabels what differs.
    fn changes(op: &Op, a: usize) -> bool {
        let word = with_a(op.bare() + Piece::of("b").encode(2) + Piece::of("c").encode(3), a);
        let registers = "R,1,240,9\nR,2,240,255\nR,3,240,7\n";
        let text = format!("M,256,255,0,240,240,100\n{registers}W,0,240,{word}\n");
        let mut machine = Machine::load(text.as_bytes()).expect("an image");
        let before = machine.register(a);
        machine.step();
        machine.register(a) != before
    }

    #[test]
    fn the_machine_changes_the_same_registers() {
        for op in OPS {
            assert_eq!(changes(op, 1), destination(op.bare()).is_some(), "{}", op.name);
            assert!(!changes(op, ZERO_REGISTER), "{}", op.name);
        }
    }

    #[test]
    fn operands_are_where_the_machine_reads_them() {
        assert_eq!(in_words(20_971_600), "set R4, 80");
        assert_eq!(in_words(128_589_824), "lt R10, R10, R2");
        assert_eq!(in_words(160_694_272), "load R9, [R4]");
        assert_eq!(in_words(204_537_875), "blt R3, R1, 19");
        assert_eq!(in_words(308_770_816), "upcall ticks R6, pair R7 R7, back R8");
        assert_eq!(in_words(369_098_752), "halt");
        assert_eq!(in_words(399_622_144), "div R13, R1, R12");
        assert_eq!(in_words(417_447_936), "rem R14, R1, R12");
        assert_eq!(in_words(419_430_400), ".word 419430400");
        assert_eq!(in_words(540), ".word 540");
    }

    #[test]
    fn an_exact_word_has_no_unused_bit() {
        assert!(is_exact(128_589_824) && is_exact(369_098_752) && is_exact(399_622_144));
        assert!(!is_exact(128_589_825) && !is_exact(369_098_753) && !is_exact(540));
        assert!(!is_exact(399_622_145) && !is_exact(417_448_192));
    }

    /// The man page has the table once more, for the reader.
    #[test]
    fn the_man_page_has_every_op() {
        let page = include_str!("../man/kiln-source.5");
        for op in OPS {
            let is_row = |line: &str| {
                line.starts_with(&format!("{}  ", op.pattern()))
                    && line.ends_with(&format!("  {}", op.ticks))
            };
            assert_eq!(page.lines().filter(|line| is_row(line)).count(), 1, "{}", op.name);
        }
    }

    #[test]
    fn numbers_and_names_are_of_one_op_each() {
        for (index, op) in OPS.iter().enumerate() {
            assert!(OPS[..index]
                .iter()
                .all(|other| other.number < op.number && other.name != op.name));
        }
    }
}
