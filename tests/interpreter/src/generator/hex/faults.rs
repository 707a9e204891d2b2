//! The faults of HEX, and putting them into the lines of a good image.

use super::draft::HexDraft;
use super::record::{Line, Record, Style};
use crate::generator::random::Random;
use crate::hex::{kind, BAD_BYTE, BAD_RECORD, WORD_BYTES};

/// What can be wrong with the text of the records.
#[derive(Clone, Copy, Debug, PartialEq, Eq)]
pub enum Fault {
    /// 11, of a line's characters.
    FirstByte,
    Blank,
    OddDigit,
    NoDigit,
    LoneCr,
    NoLf,
    Short,
    EmptyLine,
    /// 11, of what the characters say.
    MoreBytes,
    FewerBytes,
    Sum,
    Type,
    EndWithBytes,
    /// 11, of the ending.
    EmptyText,
    NoEnd,
    BehindEnd,
    /// 12, a byte outside memory: the first one, one further on, or in a record
    /// that goes past 65,535.
    AtSize,
    Beyond,
    Past65535,
    /// 12, a byte given twice.
    Twice,
}
use Fault::{
    AtSize, BehindEnd, Beyond, Blank, EmptyLine, EmptyText, EndWithBytes, FewerBytes, FirstByte,
    LoneCr, MoreBytes, NoDigit, NoEnd, NoLf, OddDigit, Past65535, Short, Sum, Twice, Type,
};

/// The faults that a line can have whatever bytes it gives.
pub const FORM: [Fault; 13] = [
    FirstByte,
    Blank,
    OddDigit,
    NoDigit,
    LoneCr,
    NoLf,
    Short,
    EmptyLine,
    MoreBytes,
    FewerBytes,
    Sum,
    Type,
    EndWithBytes,
];

/// The faults of the bytes that a line gives.
pub const BYTE: [Fault; 4] = [AtSize, Beyond, Past65535, Twice];

/// The faults of what comes last.
pub const ENDING: [Fault; 3] = [EmptyText, NoEnd, BehindEnd];

/// The first address that a record's two bytes can't tell.
const ADDRESSES: usize = 65_536;

/// What is no digit: the neighbours of digits among it.
const NO_DIGITS: &[u8] = b"/:@G`gxz+-.,\0\x7f\xb0\xff";

/// The refusal's number for a fault.
pub fn number(fault: Fault) -> u8 {
    if BYTE.contains(&fault) {
        BAD_BYTE
    } else {
        BAD_RECORD
    }
}

/// Whether a line with this fault of form still tells which bytes it gives.
pub fn leaves_bytes(fault: Fault) -> bool {
    !matches!(fault, Short | EmptyLine)
}

/// The lines of an image while being damaged. Those before every fault are those
/// of its records.
pub struct Lines {
    pub lines: Vec<Line>,
    records: Vec<Record>,
    style: Style,
    memory: usize,
}

impl Lines {
    pub fn of(random: &mut Random, draft: &HexDraft) -> Lines {
        let memory = WORD_BYTES * draft.draft.words.len();
        let (lines, records) = (draft.lines(random), draft.records.clone());
        Lines { lines, records, style: draft.style, memory }
    }

    /// Puts a fault at a line before or at this one. Gives the line at which it is
    /// found, counted from 0; nothing where it can't be put.
    pub fn put(&mut self, random: &mut Random, fault: Fault, last: usize) -> Option<usize> {
        if FORM.contains(&fault) {
            return self.spoil(random, fault, last);
        }
        match fault {
            EmptyText => self.lines.clear(),
            NoEnd => drop(self.lines.pop()),
            BehindEnd => self.go_on(random),
            fault => return self.add(random, fault, None, last),
        }
        Some(if fault == BehindEnd { self.records.len() } else { self.lines.len() })
    }

    /// Puts a fault of form on a line that gives a byte as it must not.
    pub fn put_both(&mut self, random: &mut Random, form: Fault, byte: Fault) -> Option<usize> {
        self.add(random, byte, Some(form), self.records.len())
    }

    /// Puts at least so many records that give nothing before all others. Gives
    /// their number.
    pub fn put_off(&mut self, random: &mut Random, least: u32) -> u32 {
        let count = random.between(least, least + 1_000);
        let empty = Record::data(random.bits() as u16, Vec::new());
        let line = self.style.line(random, &empty);
        self.lines.splice(0..0, (0..count).map(|_| line.clone()));
        count
    }

    /// A fault of form on one of the lines that there are.
    fn spoil(&mut self, random: &mut Random, fault: Fault, last: usize) -> Option<usize> {
        let choices = self.records.len().min(last + 1).min(self.lines.len());
        if choices == 0 {
            return None;
        }
        // The end is one of many, yet it is the one that must come.
        let at = if random.chance(20) { choices - 1 } else { random.index(choices) };
        let mut record = self.records[at].clone();
        break_record(random, &mut record, fault);
        self.lines[at] = self.style.line(random, &record);
        self.break_line(random, at, fault)
    }

    /// One more line, before the end, that gives a byte as it must not, with a
    /// fault of form or none.
    fn add(
        &mut self,
        random: &mut Random,
        byte: Fault,
        form: Option<Fault>,
        last: usize,
    ) -> Option<usize> {
        let at = random.index(self.records.len().min(last + 1).min(self.lines.len() + 1));
        let mut record = self.wrong_bytes(random, byte, at)?;
        if let Some(form) = form {
            break_record(random, &mut record, form);
        }
        let line = self.style.line(random, &record);
        self.lines.insert(at, line);
        match form {
            Some(form) => self.break_line(random, at, form),
            None => Some(at),
        }
    }

    /// A record at this line with a byte outside memory or given before.
    fn wrong_bytes(&self, random: &mut Random, fault: Fault, at: usize) -> Option<Record> {
        let length = if random.chance(40) { 1 } else { random.between(2, 20) as usize };
        let mut data: Vec<u8> = (0..length).map(|_| random.bits() as u8).collect();
        let address = match fault {
            AtSize => self.memory - random.index(length.min(self.memory)),
            Beyond => random.between(self.memory as u32 + 1, (ADDRESSES - length) as u32) as usize,
            Past65535 => {
                data.push(random.bits() as u8);
                ADDRESSES - 1 - random.index(length)
            }
            _ => {
                let before: Vec<&Record> =
                    self.records[..at].iter().filter(|r| r.gives()).collect();
                let given = random.pick(before.get(..).filter(|before| !before.is_empty())?);
                let place = random.index(given.data.len());
                data[0] = if random.chance(50) { given.data[place] } else { data[0] };
                usize::from(given.address) + place
            }
        };
        Some(Record::data(address as u16, data))
    }

    /// Something behind the end: a line, good or not, or less than a line.
    fn go_on(&mut self, random: &mut Random) {
        let any = self.records[random.index(self.records.len())].clone();
        let line = self.style.line(random, &any);
        let (body, end): (&[u8], &[u8]) = match random.below(8) {
            0 => (b"", b"\n"),
            1 => (b"", b"\r\n"),
            2 => (b" ", b""),
            3 => (b"\x1a", b""),
            4 => (&line.body, b""),
            5 => (b"x", b"\n"),
            _ => (&line.body, &line.end),
        };
        self.lines.push(Line { body: body.to_vec(), end: end.to_vec() });
    }

    /// Spoils the characters of a line, for the faults that are theirs.
    fn break_line(&mut self, random: &mut Random, at: usize, fault: Fault) -> Option<usize> {
        let next_is_empty = self.lines.get(at + 1).is_some_and(|line| line.body.is_empty());
        let Line { body, end } = &mut self.lines[at];
        let digit = 1 + random.index(body.len() - 1);
        match fault {
            FirstByte => break_first_byte(random, body),
            Blank => body.insert(random.index(body.len() + 1), random.pick(b" \t")),
            OddDigit if random.chance(50) => drop(body.remove(digit)),
            OddDigit => body.insert(digit, b'0'),
            NoDigit => body[digit] = random.pick(NO_DIGITS),
            // Where nothing but an end follows, it would end this line too.
            LoneCr | NoLf if next_is_empty => return None,
            LoneCr if random.chance(50) => *end = b"\r".to_vec(),
            LoneCr if end.len() > 1 => body.push(b'\r'),
            LoneCr => body.insert(random.index(body.len()), b'\r'),
            NoLf => *end = Vec::new(),
            Short => body.truncate(1 + 2 * random.index(5)),
            EmptyLine => body.clear(),
            _ => {}
        }
        Some(at)
    }
}

/// Another first byte, or none, or one before it.
fn break_first_byte(random: &mut Random, body: &mut Vec<u8>) {
    match random.below(3) {
        0 => drop(body.remove(0)),
        1 => body[0] = random.pick(b";S0 /\0\xba"),
        _ => body.insert(0, random.pick(b";S0/%\xef")),
    }
}

/// Spoils what a record says, for the faults that are of it.
fn break_record(random: &mut Random, record: &mut Record, fault: Fault) {
    match fault {
        MoreBytes if record.length > 0 && random.chance(50) => record.length -= 1,
        MoreBytes => record.data.push(random.bits() as u8),
        FewerBytes if record.length > 0 => drop(record.data.pop()),
        FewerBytes => record.length = random.between(1, 255) as u8,
        Sum => record.sum = random.between(1, 255) as u8,
        Type if random.chance(50) => record.kind = random.between(2, 5) as u8,
        Type => record.kind = random.between(2, 255) as u8,
        EndWithBytes => {
            record.kind = kind::END;
            record.data.resize(record.data.len().max(1), random.bits() as u8);
            record.length = record.data.len() as u8;
        }
        _ => {}
    }
}
