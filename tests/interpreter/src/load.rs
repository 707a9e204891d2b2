//! Loading: from an image's text to a record and memory, or to a refusal.
//!
//! The image is built aside and copied into the lent memory only after the
//! last line has been accepted, so a refusal leaves the memory as it was.

use crate::label::{Label, Pair};
use crate::machine::{Gate, Machine, Register, MAX_GATES, MAX_LIMIT, MAX_SIZE, ZERO_REGISTER};
use crate::SHORT_MEMORY;

/// "text empty or above 65,535 bytes"
pub const MAX_TEXT: usize = 65_535;

const BAD_TEXT: u8 = 1;
const BAD_LINE: u8 = 2;
const BAD_RANGE: u8 = 3;
pub(crate) const BAD_ORDER: u8 = 4;
const BAD_PAIR: u8 = 5;
const BAD_REGISTER: u8 = 9;

/// "13, a gate pair not valid"
pub const BAD_GATE_PAIR: u8 = 13;

/// The refusal table's second and third columns for a load: "number, line". A
/// line's number is as wide as a text's length.
#[derive(Clone, Copy, Debug, PartialEq, Eq)]
pub struct Refusal {
    pub number: u8,
    pub line: u64,
}

/// The four letters that a line may begin with, in the order in which the kinds
/// come: "M first; then G; R; W".
#[derive(Clone, Copy, Debug, PartialEq, Eq, PartialOrd, Ord)]
enum Kind {
    Machine,
    Gate,
    Register,
    Word,
}

/// A line of good form: its kind and its numbers, not yet tried for range.
struct Line {
    kind: Kind,
    numbers: [u64; 6],
}

/// What has been read so far, away from the lent memory.
pub(crate) struct Image {
    machine: Machine,
    pub(crate) words: Vec<u32>,
    pub(crate) labels: Vec<u8>,
    kind: Kind,
    last_number: Option<u64>,
}

/// The first row that applies of the refusal table, in its order: "After 1,
/// line by line, a line is tried for 2, 4 (kind), 3, 4 (rising), then 5; 6
/// follows line 1, before line 2." 9 is "tried after the rising test", and 13
/// "after the line's other tests".
pub fn load(text: &[u8], words: &mut [u32], labels: &mut [u8]) -> Result<Machine, Refusal> {
    let (mut image, mut cursor) = load_first(text, words, labels)?;
    let mut number = 1;
    while cursor < text.len() {
        number += 1;
        let (line, length) = read_line(&text[cursor..]).map_err(refuse(number))?;
        image.add(&line).map_err(refuse(number))?;
        cursor += length;
    }
    Ok(image.store(words, labels))
}

/// The refusal of this line, of whatever number.
pub(crate) fn refuse(line: u64) -> impl Fn(u8) -> Refusal {
    move |number| Refusal { number, line }
}

/// What an image is once its text's length and first line are accepted, for the
/// memory that is lent: all but its later lines, and where these begin.
pub(crate) fn load_first(
    text: &[u8],
    words: &[u32],
    labels: &[u8],
) -> Result<(Image, usize), Refusal> {
    if text.is_empty() || text.len() > MAX_TEXT {
        return Err(Refusal { number: BAD_TEXT, line: 0 });
    }
    let (first, length) = read_line(text).map_err(refuse(1))?;
    let image = start(&first).map_err(refuse(1))?;
    if image.machine.memory_is_short(words, labels) {
        return Err(Refusal { number: SHORT_MEMORY, line: 1 });
    }
    Ok((image, length))
}

/// "Each line is read as the part of the text that begins where the last line
/// ended". Gives the line and its length with its LF; "letter, field count,
/// digits or missing LF" are refusal 2.
fn read_line(rest: &[u8]) -> Result<(Line, usize), u8> {
    let end = rest.iter().position(|&byte| byte == b'\n').ok_or(BAD_LINE)?;
    let mut fields = rest[..end].split(|&byte| byte == b',');
    let kind = fields.next().and_then(read_kind).ok_or(BAD_LINE)?;
    let mut numbers = [0; 6];
    for number in &mut numbers[..number_count(kind)] {
        *number = fields.next().and_then(read_number).ok_or(BAD_LINE)?;
    }
    match fields.next() {
        Some(_) => Err(BAD_LINE),
        None => Ok((Line { kind, numbers }, end + 1)),
    }
}

/// The letters of the four lines, as they are written in the paper.
fn read_kind(field: &[u8]) -> Option<Kind> {
    match field {
        b"M" => Some(Kind::Machine),
        b"G" => Some(Kind::Gate),
        b"R" => Some(Kind::Register),
        b"W" => Some(Kind::Word),
        _ => None,
    }
}

/// "`M,size,error place,place,p,t,limit` first; then `G,place,p,t` ...
/// `R,number,label,value`; `W,address,label,value`"
fn number_count(kind: Kind) -> usize {
    match kind {
        Kind::Machine => 6,
        Kind::Gate | Kind::Register | Kind::Word => 3,
    }
}

/// "one to ten digits without leading zeros". Ten digits fit 64 bits.
pub(crate) fn read_number(field: &[u8]) -> Option<u64> {
    let leading_zero = field.len() > 1 && field[0] == b'0';
    if field.is_empty() || field.len() > 10 || leading_zero {
        return None;
    }
    field.iter().try_fold(0, |number, &digit| {
        digit.is_ascii_digit().then(|| number * 10 + u64::from(digit - b'0'))
    })
}

/// A label as an argument, written as in a text: "labels below 256".
pub fn read_label(word: &str) -> Option<Label> {
    read_number(word.as_bytes()).and_then(|number| to_label(number).ok())
}

/// "Places and values are below 2^32"
fn to_word(number: u64) -> Result<u32, u8> {
    u32::try_from(number).map_err(|_| BAD_RANGE)
}

/// "labels below 256"
fn to_label(number: u64) -> Result<Label, u8> {
    u8::try_from(number).map(Label).map_err(|_| BAD_RANGE)
}

/// "registers below 16, addresses below the size"
fn to_index(number: u64, bound: usize) -> Result<usize, u8> {
    match usize::try_from(number) {
        Ok(index) if index < bound => Ok(index),
        _ => Err(BAD_RANGE),
    }
}

/// "Size (1 to 2,048 words of 32 bits)" and "limit (1 to 16,777,216 ticks)"
fn to_count(number: u64, most: u64) -> Result<u64, u8> {
    if (1..=most).contains(&number) {
        Ok(number)
    } else {
        Err(BAD_RANGE)
    }
}

/// The first line: "first line not M" is 2, then 3, then "M pair not valid", 5.
/// "All others are value 0, label 240".
fn start(line: &Line) -> Result<Image, u8> {
    if line.kind != Kind::Machine {
        return Err(BAD_LINE);
    }
    let [size, error_pc, pc, pc_label, timing_label, limit] = line.numbers;
    let size = to_count(size, u64::from(MAX_SIZE))? as u32;
    let (error_pc, pc) = (to_word(error_pc)?, to_word(pc)?);
    let pair = Pair { pc: to_label(pc_label)?, timing: to_label(timing_label)? };
    let limit = to_count(limit, MAX_LIMIT)?;
    if !pair.is_valid() {
        return Err(BAD_PAIR);
    }
    Ok(Image {
        machine: Machine::new(size, error_pc, pc, pair, limit),
        words: vec![0; size as usize],
        labels: vec![Label::LOWEST.0; size as usize],
        kind: Kind::Machine,
        last_number: None,
    })
}

impl Image {
    /// Writes an accepted image into the lent memory, which is long enough, and
    /// gives its record.
    pub(crate) fn store(self, words: &mut [u32], labels: &mut [u8]) -> Machine {
        words[..self.words.len()].copy_from_slice(&self.words);
        labels[..self.labels.len()].copy_from_slice(&self.labels);
        self.machine
    }

    /// A later line: "kind out of order, second M, number not rising" are 4,
    /// the kind before the ranges and the rising after them.
    fn add(&mut self, line: &Line) -> Result<(), u8> {
        if line.kind == Kind::Machine || line.kind < self.kind {
            return Err(BAD_ORDER);
        }
        if line.kind != self.kind {
            self.kind = line.kind;
            self.last_number = None;
        }
        let [number, label, value, ..] = line.numbers;
        match line.kind {
            Kind::Register => self.add_register(number, label, value),
            Kind::Word => self.add_word(number, label, value),
            _ => self.add_gate(number, label, value),
        }
    }

    /// "then `G,place,p,t`, gates numbered from 0 in this order"; "number
    /// outside its range; ninth G" are 3, and "a gate pair not valid, tried after
    /// the line's other tests" is 13.
    fn add_gate(&mut self, pc: u64, pc_label: u64, timing_label: u64) -> Result<(), u8> {
        let pair = Pair { pc: to_label(pc_label)?, timing: to_label(timing_label)? };
        let gate = Gate { pc: to_word(pc)?, pair };
        if self.machine.gate_count == MAX_GATES {
            return Err(BAD_RANGE);
        }
        if !gate.pair.is_valid() {
            return Err(BAD_GATE_PAIR);
        }
        self.machine.gates[self.machine.gate_count] = gate;
        self.machine.gate_count += 1;
        Ok(())
    }

    /// "`R,number,label,value`"; "an R line for register 0, tried after the
    /// rising test" is 9, whatever its label and its value.
    fn add_register(&mut self, number: u64, label: u64, value: u64) -> Result<(), u8> {
        let index = to_index(number, self.machine.registers.len())?;
        let register = Register { value: to_word(value)?, label: to_label(label)? };
        self.rise_to(number)?;
        if index == ZERO_REGISTER {
            return Err(BAD_REGISTER);
        }
        self.machine.registers[index] = register;
        Ok(())
    }

    /// "`W,address,label,value`"
    fn add_word(&mut self, address: u64, label: u64, value: u64) -> Result<(), u8> {
        let index = to_index(address, self.words.len())?;
        let (value, label) = (to_word(value)?, to_label(label)?);
        self.rise_to(address)?;
        self.words[index] = value;
        self.labels[index] = label.0;
        Ok(())
    }

    /// "numbers and addresses rising", within one letter.
    fn rise_to(&mut self, number: u64) -> Result<(), u8> {
        if self.last_number.is_some_and(|last| number <= last) {
            return Err(BAD_ORDER);
        }
        self.last_number = Some(number);
        Ok(())
    }
}
