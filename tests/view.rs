// Views the image on standard input at the label of the first argument and the tick of the second, and prints the
// listing or the refusal as the program `viewing` does.
use std::env;
use std::io::{self, Read, Write};

// Each buffer goes as a pointer and a length. include/jennydusk.h has the meaning of the call.
#[rustfmt::skip]
#[link(name = "jennydusk", kind = "static")]
unsafe extern "C" {
    fn jennydusk_view(text: *const u8, text_length: usize, label: u8, tick: u64, words: *mut u32, words_length: usize, labels: *mut u8, labels_length: usize, output: *mut u8, output_length: usize) -> u64;
}

// JENNYDUSK_DONE. An answer is a number below NUMBERS, with a line, the limit or a length above it.
const DONE: u64 = 0;
const NUMBERS: u64 = 256;

const MOST_WORDS: usize = 2048;
const MOST_OUTPUT: usize = 65_536;

fn main() -> io::Result<()> {
    let arguments: Vec<String> = env::args().collect();
    let (label, tick) = (arguments[1].parse().unwrap(), arguments[2].parse().unwrap());
    let mut text = Vec::new();
    io::stdin().read_to_end(&mut text)?;
    let (mut words, mut labels, mut output) = ([0u32; MOST_WORDS], [0u8; MOST_WORDS], [0u8; MOST_OUTPUT]);
    let (w, l, o) = (words.as_mut_ptr(), labels.as_mut_ptr(), output.as_mut_ptr());
    // Every pointer is that of an array or a vector of the length beside it.
    let answer = unsafe {
        jennydusk_view(text.as_ptr(), text.len(), label, tick, w, MOST_WORDS, l, MOST_WORDS, o, MOST_OUTPUT)
    };
    match (answer % NUMBERS, answer / NUMBERS) {
        (DONE, length) => io::stdout().write_all(&output[..length as usize]),
        (number, value) => writeln!(io::stdout(), "X,{number},{value}"),
    }
}
