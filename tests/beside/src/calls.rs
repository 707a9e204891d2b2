//! The calls over plain buffers, for the library and the interpreter alike, and
//! their answers.

use interpreter::generator::hex::HexImage;
use interpreter::{Label, NOT_FIT, SHORT_MEMORY, SHORT_OUTPUT, TICK_ABOVE_LIMIT};

/// The calls of `include/jennydusk.h`. A slice is a pointer and a length there.
pub trait Calls {
    fn load(&self, text: &[u8], words: &mut [u32], labels: &mut [u8], record: &mut [u64]) -> u64;
    fn load_hex(&self, image: &HexImage, memory: Memory, record: &mut [u64], line: &mut u64)
        -> u64;
    fn step(&self, record: &mut [u64], words: &mut [u32], labels: &mut [u8]) -> u64;
    fn run(&self, record: &mut [u64], words: &mut [u32], labels: &mut [u8]) -> u64;
    fn run_to(&self, record: &mut [u64], words: &mut [u32], labels: &mut [u8], tick: u64) -> u64;
    fn print(&self, record: &[u64], words: &[u32], labels: &[u8], output: &mut [u8]) -> u64;
    fn print_for(
        &self,
        record: &[u64],
        words: &[u32],
        labels: &[u8],
        label: u8,
        output: &mut [u8],
    ) -> u64;
    fn view(&self, text: &[u8], viewer: Viewer, memory: Memory, output: &mut [u8]) -> u64;
    fn certify(
        &self,
        label: u8,
        text: &[u8],
        words: &mut [u32],
        labels: &mut [u8],
        certificate: &mut [u64],
    ) -> u64;
}

/// For whom, and when, a text is viewed.
#[derive(Clone, Copy, Debug, PartialEq, Eq)]
pub struct Viewer {
    pub label: Label,
    pub tick: u64,
}

/// The words and labels that a view or a load from HEX is lent.
pub struct Memory<'a> {
    pub words: &'a mut [u32],
    pub labels: &'a mut [u8],
}

/// The numbers of a refused call, as its answer has them.
pub const MEMORY_SHORT: u64 = SHORT_MEMORY as u64;
pub const OUTPUT_SHORT: u64 = SHORT_OUTPUT as u64;
pub const TICK_LATE: u64 = TICK_ABOVE_LIMIT as u64;

/// "the record is not well-formed, or the buffer holds none"
pub const NO_RECORD: u64 = NOT_FIT as u64;

/// "the record's buffer is shorter than JENNYDUSK_SPAN, or the certificate's than
/// JENNYDUSK_CERTIFICATE_SPAN"
pub const SHORT_BUFFER: u64 = 255;

/// "answers: a number, with a line or a length above it"
pub fn number(answer: u64) -> u64 {
    answer % 256
}

/// "answers: a number, with a line or a length above it"
pub fn count(answer: u64) -> u64 {
    answer / 256
}

/// "answers: a number, with a line or a length above it"
pub fn answer(number: u64, count: u64) -> u64 {
    number + 256 * count
}
