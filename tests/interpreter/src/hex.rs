//! Loading from Intel HEX: from an M text of one line, the text of the records
//! and a label to a record and memory, or to a refusal.
//!
//! Document 01 has none. The sentences quoted here are those of the owner's
//! later request: "Bytes form words with the lowest byte first. A given label
//! goes on every word with a byte given". A record of HEX is a line of its text;
//! the machine's is called so elsewhere.

use crate::label::Label;
use crate::load::{load_first, refuse, Image, Refusal, BAD_ORDER};
use crate::machine::Machine;

/// "11, a record of wrong form, type, sum or ending"
pub const BAD_RECORD: u8 = 11;

/// "12, a byte outside memory or given twice"
pub const BAD_BYTE: u8 = 12;

/// The bytes of a word of 32 bits.
pub const WORD_BYTES: usize = 4;

/// The line of "any second line" of the M text.
const SECOND: u64 = 2;

/// The types of record that are accepted: "records of type 00 and 01".
pub mod kind {
    pub const DATA: u8 = 0;
    pub const END: u8 = 1;
}

/// A line of good form, type and sum.
enum Record {
    /// Bytes of memory, from an address on.
    Data(usize, Vec<u8>),
    /// "Its address isn't read."
    End,
}

/// The bytes that were given so far: a place for each that memory has.
struct Given {
    places: Vec<Option<u8>>,
}

/// "The M text is tried first, and 1 is for it alone; any second line in it is
/// 4." 6 follows its first line, as in a text. Then the records, "line by line".
/// What they give is kept aside until the last is accepted: "memory left".
pub fn load_hex(
    text: &[u8],
    hex: &[u8],
    label: Label,
    words: &mut [u32],
    labels: &mut [u8],
) -> Result<Machine, Refusal> {
    let (mut image, length) = load_first(text, words, labels)?;
    if length < text.len() {
        return Err(Refusal { number: BAD_ORDER, line: SECOND });
    }
    let mut given = Given::none(WORD_BYTES * image.words.len());
    given.read(hex)?;
    given.form_words(&mut image, label);
    Ok(image.store(words, labels))
}

/// The record that the rest of the text begins with, and its length with its LF.
/// "lines ended by LF or CR LF": a line without LF is of wrong form, and so is
/// one that isn't there.
fn read_record(rest: &[u8]) -> Option<(Record, usize)> {
    let end = rest.iter().position(|&byte| byte == b'\n')?;
    let line = rest[..end].strip_suffix(b"\r").unwrap_or(&rest[..end]);
    let bytes = read_bytes(line.strip_prefix(b":")?)?;
    Some((judge(&bytes)?, end + 1))
}

/// "hexadecimal digits of either case", two for a byte.
fn read_bytes(digits: &[u8]) -> Option<Vec<u8>> {
    let pairs = digits.chunks_exact(2);
    if !pairs.remainder().is_empty() {
        return None;
    }
    pairs.map(|pair| Some(16 * read_digit(pair[0])? + read_digit(pair[1])?)).collect()
}

/// A digit's value, which is below 16.
fn read_digit(digit: u8) -> Option<u8> {
    match digit {
        b'0'..=b'9' => Some(digit - b'0'),
        b'a'..=b'f' => Some(digit - b'a' + 10),
        b'A'..=b'F' => Some(digit - b'A' + 10),
        _ => None,
    }
}

/// A record of these bytes: its length, two of address, its type, so many bytes
/// and its check byte. "The sum of each record's bytes, its check byte included,
/// must be 0 modulo 256." "Records end with one type 01 of length 0".
fn judge(bytes: &[u8]) -> Option<Record> {
    let [length, high, low, kind, data @ .., _check] = bytes else {
        return None;
    };
    let sum = bytes.iter().fold(0, |sum: u8, &byte| sum.wrapping_add(byte));
    if data.len() != usize::from(*length) || sum != 0 {
        return None;
    }
    let address = usize::from(u16::from_be_bytes([*high, *low]));
    match (*kind, data) {
        (kind::DATA, _) => Some(Record::Data(address, data.to_vec())),
        (kind::END, []) => Some(Record::End),
        _ => None,
    }
}

impl Given {
    /// "Addresses stop at 4 × size − 1".
    fn none(bytes: usize) -> Given {
        Given { places: vec![None; bytes] }
    }

    /// "line by line in this order: 11 ...; 12". The end is the last line:
    /// "nothing follows it (else 11 at the line after it); where it is missing,
    /// the line is the one after the last".
    fn read(&mut self, hex: &[u8]) -> Result<(), Refusal> {
        let (mut cursor, mut line) = (0, 1);
        loop {
            let found = read_record(&hex[cursor..]).ok_or(BAD_RECORD);
            let (record, length) = found.map_err(refuse(line))?;
            cursor += length;
            let Record::Data(address, bytes) = record else {
                break;
            };
            self.give(address, &bytes).map_err(refuse(line))?;
            line += 1;
        }
        if cursor < hex.len() {
            return Err(Refusal { number: BAD_RECORD, line: line + 1 });
        }
        Ok(())
    }

    /// "12, a byte outside memory or given twice". Addresses "don't wrap at
    /// 65,536": the byte behind 65,535 is that of 65,536.
    fn give(&mut self, address: usize, bytes: &[u8]) -> Result<(), u8> {
        for (place, &byte) in (address..).zip(bytes) {
            let place = self.places.get_mut(place).ok_or(BAD_BYTE)?;
            if place.replace(byte).is_some() {
                return Err(BAD_BYTE);
            }
        }
        Ok(())
    }

    /// "Bytes form words with the lowest byte first. A given label goes on every
    /// word with a byte given; its missing bytes are 0. ... Other words have
    /// value 0 and the lowest label": they stay what the M text makes them.
    fn form_words(&self, image: &mut Image, label: Label) {
        for (address, places) in self.places.chunks_exact(WORD_BYTES).enumerate() {
            let bytes: [u8; WORD_BYTES] = std::array::from_fn(|k| places[k].unwrap_or(0));
            if places.iter().any(Option::is_some) {
                image.words[address] = u32::from_le_bytes(bytes);
                image.labels[address] = label.0;
            }
        }
    }
}
