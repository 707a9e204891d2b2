//! Each refusal of the loaders in words, with its number, and that of a view. The
//! library gives the number and the line; a number has several causes, and the
//! line shows which.

use crate::files;
use crate::library::{Refusal, GATE_PAIR, HEX_BYTE, HEX_RECORD, TEXT, TICK};
use crate::records;
use crate::status::Failure;

const LF: u8 = b'\n';
const COMMA: u8 = b',';
/// The letters in the order in which a text has them, each with its field count.
const LETTERS: [(&[u8], usize); 4] = [(b"M", 7), (b"G", 4), (b"R", 4), (b"W", 4)];
const MACHINE: &[u8] = b"M";
const GATE: &[u8] = b"G";
const GATES: usize = 8;

/// `X,4,3`, the line that `firing`, `hexfiring` and `viewing` print.
pub fn line(refusal: &Refusal) -> String {
    format!("X,{},{}\n", refusal.number, refusal.beside)
}

/// A refused image, as a command's failure; the name may stand for standard input.
pub fn failure(name: &str, text: &[u8], refusal: &Refusal) -> Failure {
    Failure::refused(in_words(files::name_of(name), text, refusal))
}

/// `ramp.txt:3: 4, the number doesn't rise`. What is said of the whole text, at
/// line 0 or of its limit, is told without a line.
pub fn in_words(name: &str, text: &[u8], refusal: &Refusal) -> String {
    let Refusal { number, beside } = *refusal;
    let cause = cause(text, refusal);
    match (number, beside) {
        (TICK, limit) => format!("{name}: {number}, {cause}, which is {limit}"),
        (_, 0) => format!("{name}: {number}, {cause}"),
        (_, line) => format!("{name}:{line}: {number}, {cause}"),
    }
}

pub fn cause(text: &[u8], refusal: &Refusal) -> &'static str {
    let all = || text.split(|byte| *byte == LF);
    let lines: Vec<&[u8]> = all().take(refusal.beside).collect();
    let (line, before) = lines.split_last().unwrap_or((&text, &[]));
    match refusal.number {
        1 if text.len() > TEXT => "the text is longer than 65,535 bytes",
        1 => "the text is empty",
        2 if all().count() == refusal.beside => "the line doesn't end in LF",
        2 => malformed(line, before.is_empty()),
        3 if is_ninth_gate(line, before) => "this is a ninth gate",
        3 => "a number is outside its range",
        4 => misplaced(line, before),
        5 => "the pair isn't valid",
        6 => "the memory is shorter than the size",
        9 => "this is an R line for register 0, which is always 0",
        TICK => "the tick is above the limit",
        HEX_RECORD => records::malformed(text, refusal.beside),
        HEX_BYTE => records::misplaced(text, refusal.beside),
        GATE_PAIR => "the gate's pair isn't valid",
        _ => "the library knows why",
    }
}

fn malformed(line: &[u8], is_first: bool) -> &'static str {
    let fields = line.split(|byte| *byte == COMMA).count();
    match place(line) {
        _ if line.is_empty() => "the line is empty",
        _ if is_first && letter(line) != MACHINE => "the first line is no M line",
        None => "the letter is none of M, G, R and W",
        Some(place) if LETTERS[place].1 != fields => "the count of fields is wrong",
        Some(_) => "a field isn't one to ten digits without a leading zero",
    }
}

fn is_ninth_gate(line: &[u8], before: &[&[u8]]) -> bool {
    let is_gate = |line: &[u8]| letter(line) == GATE;
    is_gate(line) && before.iter().filter(|line| is_gate(line)).count() == GATES
}

/// In an image the line behind the first can be misplaced only as a second M line.
/// So where it is another one, the text is an M text, which has no second line.
fn misplaced(line: &[u8], before: &[&[u8]]) -> &'static str {
    let last = before.last().and_then(|line| place(line));
    match letter(line) {
        MACHINE => "this is a second M line",
        _ if before.len() == 1 => "the M text beside HEX has one line alone",
        _ if place(line) < last => "the kind of the line is out of order",
        _ => "the number doesn't rise",
    }
}

fn letter(line: &[u8]) -> &[u8] {
    line.split(|byte| *byte == COMMA).next().unwrap_or(line)
}

fn place(line: &[u8]) -> Option<usize> {
    LETTERS.iter().position(|(known, _)| *known == letter(line))
}
