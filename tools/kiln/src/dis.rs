//! `kiln dis`: from an image back to a source, from which `kiln asm` makes the
//! same image to the byte.

use crate::command::Arguments;
use crate::files;
use crate::image::{self, Cell, Gate, Line, Machine};
use crate::ops::{self, Op};
use crate::status::{Failure, Status};
use std::collections::BTreeSet;

/// Before the ops, beside which names stand.
const INDENT: usize = 8;

pub fn dis(arguments: &Arguments) -> Result<Status, Failure> {
    let lines = image::read(&arguments.file)?;
    files::write(arguments.output.as_deref(), source(&lines).as_bytes())?;
    Ok(Status::Done)
}

fn source(lines: &[Line]) -> String {
    let places = Places::of(lines);
    let befores = std::iter::once(None).chain(lines.iter().map(Some));
    lines.iter().zip(befores).map(|(line, before)| places.write(line, before)).collect()
}

/// The places of an image: its size, and which addresses get a name.
struct Places {
    size: u32,
    named: BTreeSet<u32>,
}

impl Places {
    /// A place that is gone to gets a name if there is a word to stand before.
    fn of(lines: &[Line]) -> Places {
        let words: BTreeSet<u32> = lines.iter().filter_map(address).collect();
        let targets: BTreeSet<u32> = lines.iter().flat_map(targets).collect();
        let size = lines.iter().find_map(|line| match line {
            Line::Machine(machine) => Some(machine.size),
            _ => None,
        });
        Places { size: size.unwrap_or(0), named: &words & &targets }
    }

    /// A place as an operand or a field.
    fn name(&self, place: u32) -> String {
        match place {
            _ if self.named.contains(&place) => format!("L{place}"),
            _ if place < self.size => place.to_string(),
            _ => format!("!{place}"),
        }
    }

    /// A line of the image as lines of a source, behind the line before it.
    fn write(&self, line: &Line, before: Option<&Line>) -> String {
        match line {
            Line::Machine(Machine { size, error, start, p, t, limit }) => {
                let (error, start) = (self.name(*error), self.name(*start));
                format!(
                    ".machine size={size} error={error} start={start} p={p} t={t} limit={limit}\n"
                )
            }
            Line::Gate(Gate { place, p, t }) => {
                format!(".gate place={} p={p} t={t}\n", self.name(*place))
            }
            Line::Register(Cell { number, label, value }) => {
                format!(".register R{number} label={label} value={value}\n")
            }
            Line::Word(word) => block(word, before) + &self.word(word),
        }
    }

    fn word(&self, word: &Cell) -> String {
        let name = match self.named.contains(&word.number) {
            true => format!("L{}:", word.number),
            false => String::new(),
        };
        format!("{name:INDENT$}{}\n", self.content(word.value))
    }

    /// An op where it is the word and no other; else the word as a number.
    fn content(&self, word: u32) -> String {
        match Op::of(word) {
            Some(op) if ops::is_exact(word) => op.written(word, |place| self.name(place)),
            Some(_) => format!(".word {word} ; {}", ops::in_words(word)),
            None => ops::in_words(word),
        }
    }
}

/// The directive that begins a block, if this word begins one.
fn block(word: &Cell, before: Option<&Line>) -> String {
    match before {
        Some(Line::Word(last)) if last.number + 1 == word.number && last.label == word.label => {
            String::new()
        }
        _ => format!("\n.block at={} label={}\n", word.number, word.label),
    }
}

fn address(line: &Line) -> Option<u32> {
    match line {
        Line::Word(word) => Some(word.number),
        _ => None,
    }
}

/// The places that a line goes to.
fn targets(line: &Line) -> Vec<u32> {
    match line {
        Line::Machine(machine) => vec![machine.error, machine.start],
        Line::Gate(gate) => vec![gate.place],
        Line::Register(_) => Vec::new(),
        Line::Word(word) => ops::target(word.value).into_iter().collect(),
    }
}

#[cfg(test)]
mod tests {
    use super::*;
    use crate::source::assemble;

    /// The image of a source that dis writes, as asm writes it.
    fn back(text: &str) -> String {
        let source = source(&image::parse(text).expect("an image"));
        assemble(&source, &[]).expect("a right source").image()
    }

    /// The bits behind an op: none, all, each alone, and some others.
    fn operands() -> Vec<u32> {
        let others =
            [0, 0xFF_FFFF, 0x12_3456, 0xAB_C000, 0x45_6700, 0x98_0000, 0x70_0005, 0x08_07FF];
        (0..24).map(|bit| 1 << bit).chain(others).collect()
    }

    #[test]
    fn every_word_of_every_op_comes_back() {
        for operand in operands() {
            let word = |op: u32| format!("W,{op},{},{}\n", op % 7, op << 24 | operand);
            let words: String = (0..=255).map(word).collect();
            let text = format!("M,256,255,0,240,240,9\n{words}");
            assert_eq!(back(&text), text);
        }
    }

    #[test]
    fn places_outside_and_lines_of_default_value_come_back() {
        for text in [
            "M,1,1,4294967295,240,240,1\nG,2048,0,0\nG,0,240,255\nR,1,240,0\nR,15,0,4294967295\n",
            "M,2048,7,8,240,240,16777216\nW,7,240,0\nW,9,240,184549385\nW,2047,15,184614911\n",
        ] {
            assert_eq!(back(text), text);
        }
    }
}
