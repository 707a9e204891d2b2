//! What a label sees of a state, as the library lists it.

use crate::labels::LOWEST;
use crate::library::{Call, Cell, Machine, Pair, REGISTERS};
use std::ops::Range;
use std::rc::Rc;

/// What a location has that no line of a listing names, if it is in sight.
pub const UNSET: Cell = Cell { label: LOWEST, value: 0 };

/// Registers or words; none where one is out of sight.
pub type Cells = Vec<Option<Cell>>;

/// A line of a listing has at most so many numbers.
const NUMBERS: usize = 6;

/// Where a machine stands, without its clock.
#[derive(Debug, PartialEq, Eq)]
pub struct Control {
    pub pc: u32,
    pub pair: Pair,
    /// The open calls, the older first.
    pub calls: Vec<Call>,
    pub end: u64,
    pub why: u64,
}

pub struct Sight {
    /// None where it is out of sight.
    pub control: Option<Control>,
    pub registers: Cells,
    /// Two sights of one memory share them.
    pub words: Rc<Cells>,
}

impl Sight {
    pub fn of(label: u8, machine: &Machine) -> Sight {
        Sight::listed(label, machine, 0..machine.size())
    }

    /// What the label sees of a later state, in which these words may be others.
    /// No line is made for the rest, of which there are many.
    pub fn later(&self, label: u8, machine: &Machine, others: Range<usize>) -> Sight {
        if others.is_empty() {
            let sight = Sight::listed(label, machine, 0..1);
            return Sight { words: self.words.clone(), ..sight };
        }
        let sight = Sight::listed(label, machine, others.clone());
        let mut words = self.words.to_vec();
        words[others].copy_from_slice(&sight.words);
        Sight { words: Rc::new(words), ..sight }
    }

    /// What the label sees, and of the words those that are lent alone.
    fn listed(label: u8, machine: &Machine, lent: Range<usize>) -> Sight {
        let listing = machine.listing_for(label, lent.clone());
        let listing = String::from_utf8(listing).expect("a listing is ASCII");
        let registers = (0..REGISTERS).map(|number| machine.register(number));
        let words = lent.map(|address| machine.word(address));
        Sight {
            control: control(&listing),
            registers: cells(&listing, 'R', registers),
            words: Rc::new(cells(&listing, 'W', words)),
        }
    }
}

/// The cells that a listing's lines of a letter name. A cell without a line is
/// value 0, label 240, or it is out of sight.
fn cells(listing: &str, letter: char, all: impl Iterator<Item = Cell>) -> Cells {
    let mut seen: Cells = all.map(|cell| (cell == UNSET).then_some(cell)).collect();
    for [number, label, value, ..] in lines(listing, letter) {
        seen[number as usize] = Some(Cell { label: label as u8, value: value as u32 });
    }
    seen
}

/// The control of the E line and the F lines. A listing with a line H has neither.
fn control(listing: &str) -> Option<Control> {
    let [end, why, _, pc, p, t] = lines(listing, 'E').next()?;
    let calls = lines(listing, 'F').map(call).collect();
    Some(Control { pc: pc as u32, pair: pair(p, t), calls, end, why })
}

fn call([kind, return_pc, p, t, end_tick, _]: [u64; NUMBERS]) -> Call {
    Call { kind, return_pc: return_pc as u32, pair: pair(p, t), end_tick }
}

fn pair(p: u64, t: u64) -> Pair {
    Pair { pc_label: p as u8, timing_label: t as u8 }
}

/// The numbers of a listing's lines of a letter.
fn lines(listing: &str, letter: char) -> impl Iterator<Item = [u64; NUMBERS]> + '_ {
    listing.lines().filter_map(move |line| line.strip_prefix(letter)).map(numbers)
}

/// The numbers behind a line's letter; where it has fewer, zeros follow.
fn numbers(behind: &str) -> [u64; NUMBERS] {
    let mut numbers = [0; NUMBERS];
    for (number, field) in numbers.iter_mut().zip(behind.split(',').skip(1)) {
        *number = field.parse().expect("a field of a listing is a number");
    }
    numbers
}

#[cfg(test)]
mod tests {
    use super::*;

    const CELL: Cell = Cell { label: 34, value: 7 };

    #[test]
    fn a_cell_without_a_line_is_unset_or_out_of_sight() {
        let all = [UNSET, CELL, Cell { label: 68, value: 7 }, UNSET];
        let seen = cells("H\nR,1,34,7\nW,2,34,9\n", 'R', all.into_iter());
        assert_eq!(seen, [Some(UNSET), Some(CELL), None, Some(UNSET)]);
    }

    #[test]
    fn the_control_is_that_of_the_lines() {
        let listing = "E,0,0,12,5,68,68\nF,1,9,240,241,0\nF,2,3,240,240,8589934591\nR,1,34,7\n";
        let seen = control(listing).expect("an E line");
        let [gate, upcall] = seen.calls[..] else { panic!("two calls") };
        assert_eq!((seen.pc, seen.pair, seen.end, seen.why), (5, pair(68, 68), 0, 0));
        assert_eq!(gate, Call { kind: 1, return_pc: 9, pair: pair(240, 241), end_tick: 0 });
        let end_tick = 8_589_934_591;
        assert_eq!(upcall, Call { kind: 2, return_pc: 3, pair: pair(240, 240), end_tick });
        assert_eq!(control("H\nR,1,34,7\n"), None);
    }
}
