//! A record before it is a line of HEX, and how its line is written.

use crate::generator::random::Random;
use crate::hex::kind;

/// A record. A good one's length is that of its data, and its sum is 0.
#[derive(Clone, Debug, PartialEq, Eq)]
pub struct Record {
    pub length: u8,
    pub address: u16,
    pub kind: u8,
    pub data: Vec<u8>,
    /// What the sum of its bytes is modulo 256, the check byte included.
    pub sum: u8,
}

/// A line: what comes before its end, and the end.
#[derive(Clone, Debug, PartialEq, Eq)]
pub struct Line {
    pub body: Vec<u8>,
    pub end: Vec<u8>,
}

/// One of two ways, or either at each place.
#[derive(Clone, Copy, Debug, PartialEq, Eq)]
pub enum Choice {
    First,
    Second,
    Mixed,
}

/// How the lines of a text are written: digits of upper or lower case, lines
/// ended by LF or CR LF.
#[derive(Clone, Copy, Debug)]
pub struct Style {
    pub case: Choice,
    pub end: Choice,
}

impl Choice {
    pub fn any(random: &mut Random) -> Choice {
        random.pick(&[Choice::First, Choice::Second, Choice::Mixed])
    }

    fn is_second(self, random: &mut Random) -> bool {
        match self {
            Choice::First => false,
            Choice::Second => true,
            Choice::Mixed => random.chance(50),
        }
    }
}

impl Style {
    pub fn any(random: &mut Random) -> Style {
        Style { case: Choice::any(random), end: Choice::any(random) }
    }

    /// The line of a record.
    pub fn line(self, random: &mut Random, record: &Record) -> Line {
        let mut body = vec![b':'];
        for byte in record.bytes() {
            let digits = format!("{byte:02X}").into_bytes();
            body.extend(digits.iter().map(|digit| self.digit(random, *digit)));
        }
        let end: &[u8] = if self.end.is_second(random) { b"\r\n" } else { b"\n" };
        Line { body, end: end.to_vec() }
    }

    fn digit(self, random: &mut Random, digit: u8) -> u8 {
        if self.case.is_second(random) {
            digit.to_ascii_lowercase()
        } else {
            digit
        }
    }
}

impl Record {
    /// "records of type 00"
    pub fn data(address: u16, data: Vec<u8>) -> Record {
        Record { length: data.len() as u8, address, kind: kind::DATA, data, sum: 0 }
    }

    /// "one type 01 of length 0"
    pub fn end(address: u16) -> Record {
        Record { length: 0, address, kind: kind::END, data: Vec::new(), sum: 0 }
    }

    /// The length, two bytes of address, the type, the data, and the check byte
    /// that makes its sum.
    fn bytes(&self) -> Vec<u8> {
        let [high, low] = self.address.to_be_bytes();
        let mut bytes = [&[self.length, high, low, self.kind], &self.data[..]].concat();
        let others = bytes.iter().fold(0, |sum: u8, &byte| sum.wrapping_add(byte));
        bytes.push(self.sum.wrapping_sub(others));
        bytes
    }

    /// Whether it gives a byte of memory.
    pub fn gives(&self) -> bool {
        self.kind == kind::DATA && !self.data.is_empty()
    }
}

/// The text of these lines.
pub fn join(lines: &[Line]) -> Vec<u8> {
    lines.iter().flat_map(|line| [&line.body[..], &line.end].concat()).collect()
}
