//! Records of Intel HEX: words written as records, and lines taken apart for the
//! words of a refusal. Whether a text is taken is the library's to say.

use crate::image::Cell;
use std::ops::Range;

const LF: u8 = b'\n';
const CR: &[u8] = b"\r";
const COLON: &[u8] = b":";
const BASE: u32 = 16;
/// A byte is two digits.
const DIGITS: usize = 2;
/// The types: a record that gives bytes, and the one that ends the text.
const DATA: u8 = 0;
const END: u8 = 1;
/// Besides the bytes that it gives, a record has a length, an address of two, a
/// type and a check byte.
const FRAME: usize = 5;
const WORD_BYTES: u32 = 4;
/// A record of so many words has 16 bytes, as those of most programs do.
const RECORD_WORDS: usize = 4;

/// The HEX text of words, the lowest byte of each first. Their addresses rise.
pub fn written(words: &[Cell]) -> String {
    let runs = words.chunk_by(|word, next| word.number + 1 == next.number);
    let records: String = runs.flat_map(|run| run.chunks(RECORD_WORDS)).map(data).collect();
    records + &record(END, 0, &[])
}

/// The record of words that follow each other.
fn data(words: &[Cell]) -> String {
    let address = words[0].number * WORD_BYTES;
    let address = u16::try_from(address).expect("a memory has fewer bytes than a record can name");
    let bytes: Vec<u8> = words.iter().flat_map(|word| word.value.to_le_bytes()).collect();
    record(DATA, address, &bytes)
}

fn record(kind: u8, address: u16, given: &[u8]) -> String {
    let [high, low] = address.to_be_bytes();
    let mut bytes = vec![given.len() as u8, high, low, kind];
    bytes.extend(given);
    bytes.push(sum(&bytes).wrapping_neg());
    let digits: String = bytes.iter().map(|byte| format!("{byte:02X}")).collect();
    format!(":{digits}\n")
}

fn sum(bytes: &[u8]) -> u8 {
    bytes.iter().fold(0, |sum: u8, byte| sum.wrapping_add(*byte))
}

/// Why a line can't be the next record; lines are counted from 1.
pub fn malformed(text: &[u8], number: usize) -> &'static str {
    let is_last = text.split(is_end_of_line).count() == number;
    let (before, line) = up_to(text, number);
    match before.last() {
        Some(last) if kind(last) == Some(END) => "this is behind the record that ends the text",
        _ if is_last && line.is_empty() => "the record of type 01 that ends the text is missing",
        _ if is_last => "the line doesn't end in LF",
        _ => misshapen(line),
    }
}

/// Why a record's bytes can't go where it says. The records before it are right.
pub fn misplaced(text: &[u8], number: usize) -> &'static str {
    let (before, line) = up_to(text, number);
    let given = places(line);
    let meets = |other: Range<usize>| other.start < given.end && given.start < other.end;
    match before.into_iter().any(|line| meets(places(line))) {
        true => "a byte is given twice",
        false => "a byte is outside the memory",
    }
}

fn is_end_of_line(byte: &u8) -> bool {
    *byte == LF
}

/// The lines before one, and that one, without LF.
fn up_to(text: &[u8], number: usize) -> (Vec<&[u8]>, &[u8]) {
    let mut lines: Vec<&[u8]> = text.split(is_end_of_line).take(number).collect();
    let line = lines.pop().unwrap_or(text);
    (lines, line)
}

fn misshapen(line: &[u8]) -> &'static str {
    if without_cr(line).is_empty() {
        return "the line is empty";
    }
    if !line.starts_with(COLON) {
        return "the line doesn't begin with a colon";
    }
    let Some(bytes) = bytes(line) else {
        return "what is behind the colon isn't pairs of hexadecimal digits";
    };
    let wanted = bytes.first().map(|length| usize::from(*length) + FRAME);
    match kind(line) {
        _ if wanted != Some(bytes.len()) => {
            "the count of bytes isn't the one that the length asks for"
        }
        _ if sum(&bytes) != 0 => "the sum of the bytes isn't 0 modulo 256",
        Some(END) => "the record of type 01 has bytes",
        _ => "the type is neither 00 nor 01",
    }
}

fn without_cr(line: &[u8]) -> &[u8] {
    line.strip_suffix(CR).unwrap_or(line)
}

/// The bytes behind a line's colon.
fn bytes(line: &[u8]) -> Option<Vec<u8>> {
    without_cr(line).strip_prefix(COLON)?.chunks(DIGITS).map(byte).collect()
}

fn byte(digits: &[u8]) -> Option<u8> {
    let &[high, low] = digits else { return None };
    let digit = |digit: u8| char::from(digit).to_digit(BASE);
    u8::try_from(digit(high)? * BASE + digit(low)?).ok()
}

/// A record's type.
fn kind(line: &[u8]) -> Option<u8> {
    let [_, _, _, kind] = *bytes(line)?.first_chunk()?;
    Some(kind)
}

/// The places to which a record gives bytes; none, where it is no record.
fn places(line: &[u8]) -> Range<usize> {
    let bytes = bytes(line).unwrap_or_default();
    let Some(&[length, high, low]) = bytes.first_chunk() else { return 0..0 };
    let start = usize::from(u16::from_be_bytes([high, low]));
    start..start + usize::from(length)
}

#[cfg(test)]
mod tests {
    use super::*;

    fn words(given: &[(u32, u32)]) -> Vec<Cell> {
        given.iter().map(|&(number, value)| Cell { number, label: 0, value }).collect()
    }

    #[test]
    fn words_are_written_lowest_byte_first() {
        assert_eq!(written(&[]), ":00000001FF\n");
        let two = words(&[(0, 0x0110_0005), (2047, 0xFFFF_FFFF)]);
        assert_eq!(written(&two), ":0400000005001001E6\n:041FFC00FFFFFFFFE5\n:00000001FF\n");
    }

    #[test]
    fn a_record_has_sixteen_bytes_and_no_gap() {
        let seven = words(&[(1, 0), (2, 0), (3, 0), (4, 0), (5, 0), (7, 0), (8, 0)]);
        let heads: Vec<String> =
            written(&seven).lines().map(|line| line[..9].to_string()).collect();
        assert_eq!(heads, [":10000400", ":04001400", ":08001C00", ":00000001"]);
    }

    #[test]
    fn a_line_that_is_no_record_has_a_cause() {
        for (text, number, cause) in [
            ("", 1, "the record of type 01 that ends the text is missing"),
            (":0000000000\n", 2, "the record of type 01 that ends the text is missing"),
            (":00000001FF\n\n", 2, "this is behind the record that ends the text"),
            (":00000001FF", 1, "the line doesn't end in LF"),
            ("\r\n", 1, "the line is empty"),
            ("00000001FF\n", 1, "the line doesn't begin with a colon"),
            (":0000 0001FF\n", 1, "what is behind the colon isn't pairs of hexadecimal digits"),
            (":00000001F\n", 1, "what is behind the colon isn't pairs of hexadecimal digits"),
            (":\n", 1, "the count of bytes isn't the one that the length asks for"),
            (":0100000000\n", 1, "the count of bytes isn't the one that the length asks for"),
            (":00000001fe\r\n", 1, "the sum of the bytes isn't 0 modulo 256"),
            (":0100000100FE\n", 1, "the record of type 01 has bytes"),
            (":020000040000FA\n", 1, "the type is neither 00 nor 01"),
        ] {
            assert_eq!(malformed(text.as_bytes(), number), cause, "{text}");
        }
    }

    #[test]
    fn a_byte_is_outside_or_given_twice() {
        let twice = b":020000000000FE\n:0100010000FE\n";
        assert_eq!(misplaced(twice, 2), "a byte is given twice");
        let outside = b":020000000000FE\n:0100020000FD\n";
        assert_eq!(misplaced(outside, 2), "a byte is outside the memory");
    }
}
