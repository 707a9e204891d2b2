//! An image taken apart into its lines, and written again. Whether it is one is
//! the library's to say; here a line is a letter and its numbers.

use crate::files;
use crate::library;
use crate::refusals;
use crate::status::Failure;
use std::fmt;

/// The M line.
#[derive(Clone, Copy, Debug, PartialEq, Eq)]
pub struct Machine {
    pub size: u32,
    pub error: u32,
    pub start: u32,
    pub p: u8,
    pub t: u8,
    pub limit: u32,
}

#[derive(Clone, Copy, Debug, PartialEq, Eq)]
pub struct Gate {
    pub place: u32,
    pub p: u8,
    pub t: u8,
}

/// A register's or a word's line: its number or address, its label and value.
#[derive(Clone, Copy, Debug, PartialEq, Eq)]
pub struct Cell {
    pub number: u32,
    pub label: u8,
    pub value: u32,
}

/// One line of an image.
#[derive(Clone, Copy, Debug, PartialEq, Eq)]
pub enum Line {
    Machine(Machine),
    Gate(Gate),
    Register(Cell),
    Word(Cell),
}

impl Line {
    /// Reads a line without its LF. A line of another form, or with a number
    /// that no such line can have, is none.
    fn parse(text: &str) -> Option<Line> {
        let (letter, fields) = text.split_once(',')?;
        let numbers: Vec<u32> =
            fields.split(',').map(|field| field.parse().ok()).collect::<Option<_>>()?;
        let label = |number: u32| u8::try_from(number).ok();
        Some(match (letter, numbers.as_slice()) {
            ("M", &[size, error, start, p, t, limit]) => {
                Line::Machine(Machine { size, error, start, p: label(p)?, t: label(t)?, limit })
            }
            ("G", &[place, p, t]) => Line::Gate(Gate { place, p: label(p)?, t: label(t)? }),
            ("R", &[number, l, value]) => Line::Register(Cell { number, label: label(l)?, value }),
            ("W", &[number, l, value]) => Line::Word(Cell { number, label: label(l)?, value }),
            _ => return None,
        })
    }
}

impl fmt::Display for Line {
    fn fmt(&self, to: &mut fmt::Formatter) -> fmt::Result {
        match self {
            Line::Machine(Machine { size, error, start, p, t, limit }) => {
                write!(to, "M,{size},{error},{start},{p},{t},{limit}")
            }
            Line::Gate(Gate { place, p, t }) => write!(to, "G,{place},{p},{t}"),
            Line::Register(Cell { number, label, value }) => {
                write!(to, "R,{number},{label},{value}")
            }
            Line::Word(Cell { number, label, value }) => write!(to, "W,{number},{label},{value}"),
        }
    }
}

/// The lines of the image in a file; one that the library refuses is told in words.
pub fn read(name: &str) -> Result<Vec<Line>, Failure> {
    let text = files::read_image(name)?;
    library::Machine::load(&text).map_err(|refusal| refusals::failure(name, &text, &refusal))?;
    // The loader accepts digits, commas, four letters and LF alone.
    let lines = parse(&String::from_utf8_lossy(&text));
    Ok(lines.expect("an accepted image has lines of known form"))
}

/// The lines of a text, of an image that the library has accepted.
pub fn parse(text: &str) -> Option<Vec<Line>> {
    text.strip_suffix('\n')?.split('\n').map(Line::parse).collect()
}

/// The text of an image.
pub fn written<'a>(lines: impl Iterator<Item = &'a Line>) -> String {
    lines.map(|line| format!("{line}\n")).collect()
}

#[cfg(test)]
mod tests {
    use super::*;

    #[test]
    fn an_image_is_written_as_it_was_read() {
        let text = "M,8,7,4294967295,240,241,100\nG,9,240,255\nR,3,240,0\nW,0,34,17825797\n";
        let lines = parse(text).expect("four lines");
        assert_eq!(lines.len(), 4);
        assert_eq!(written(lines.iter()), text);
    }

    #[test]
    fn what_is_no_line_is_none() {
        for text in ["", "M,8\n", "W,0,256,1\n", "X,0,1,1\n", "W,0,1,4294967296\n", "W,0,1,1"] {
            assert_eq!(parse(text), None, "{text}");
        }
    }
}
