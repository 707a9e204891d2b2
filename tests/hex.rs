// Loads the M text in the file that the second argument names, with the HEX text on standard input and the label of the
// first argument, runs it and prints the listing or the refusal as the program `hexfiring` does.
use std::io::{self, Read, Write};
use std::{env, fs};

// Each buffer goes as a pointer and a length, the word for a line as a pointer. include/jennydusk.h has the meaning of
// each call.
#[rustfmt::skip]
#[link(name = "jennydusk", kind = "static")]
unsafe extern "C" {
    fn jennydusk_load_hex(text: *const u8, text_length: usize, hex: *const u8, hex_length: usize, label: u8, words: *mut u32, words_length: usize, labels: *mut u8, labels_length: usize, record: *mut u64, record_length: usize, line: *mut u64) -> u64;
    fn jennydusk_run(record: *mut u64, record_length: usize, words: *mut u32, words_length: usize, labels: *mut u8, labels_length: usize) -> u64;
    fn jennydusk_print(record: *const u64, record_length: usize, words: *const u32, words_length: usize, labels: *const u8, labels_length: usize, output: *mut u8, output_length: usize) -> u64;
}

// JENNYDUSK_SPAN and JENNYDUSK_DONE. The answer of print is a number below NUMBERS, with a length above it.
const SPAN: usize = 76;
const DONE: u64 = 0;
const NUMBERS: u64 = 256;

const SIZE: usize = 2048;
const MOST_OUTPUT: usize = 65_536;

fn main() -> io::Result<()> {
    let arguments: Vec<String> = env::args().collect();
    let (label, text) = (arguments[1].parse().unwrap(), fs::read(&arguments[2])?);
    let mut hex = Vec::new();
    io::stdin().read_to_end(&mut hex)?;
    let (mut record, mut words, mut labels, mut output) = ([0u64; SPAN], [0u32; SIZE], [0u8; SIZE], [0u8; MOST_OUTPUT]);
    let (r, w, l, o) = (record.as_mut_ptr(), words.as_mut_ptr(), labels.as_mut_ptr(), output.as_mut_ptr());
    let mut line = 0;
    // Every pointer is that of an array or a vector of the length beside it, or of the one word for the line.
    let (t, h) = ((text.as_ptr(), text.len()), (hex.as_ptr(), hex.len()));
    let answer = unsafe { jennydusk_load_hex(t.0, t.1, h.0, h.1, label, w, SIZE, l, SIZE, r, SPAN, &mut line) };
    if answer != DONE {
        return writeln!(io::stdout(), "X,{answer},{line}");
    }
    let length = unsafe {
        jennydusk_run(r, SPAN, w, SIZE, l, SIZE);
        jennydusk_print(r, SPAN, w, SIZE, l, SIZE, o, MOST_OUTPUT) / NUMBERS
    };
    io::stdout().write_all(&output[..length as usize])
}
