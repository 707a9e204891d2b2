// Certifies the image in the file that the second argument names, at the label of the first, and prints the certificate
// or the refusal as the program `certifying` does.
use std::{env, fs};

// Each buffer goes as a pointer and a length. include/jennydusk.h has the meaning of the call.
#[rustfmt::skip]
#[link(name = "jennydusk", kind = "static")]
unsafe extern "C" {
    fn jennydusk_certify(label: u8, text: *const u8, text_length: usize, words: *mut u32, words_length: usize, labels: *mut u8, labels_length: usize, certificate: *mut u64, certificate_length: usize) -> u64;
}

// JENNYDUSK_CERTIFICATE_SPAN and JENNYDUSK_DONE. An answer is a number below NUMBERS, with a line above it.
const SPAN: usize = 3;
const DONE: u64 = 0;
const NUMBERS: u64 = 256;

const MOST_WORDS: usize = 2048;

fn main() {
    let arguments: Vec<String> = env::args().collect();
    let (label, text) = (arguments[1].parse().unwrap(), fs::read(&arguments[2]).unwrap());
    let (mut words, mut labels, mut certificate) = ([0u32; MOST_WORDS], [0u8; MOST_WORDS], [0u64; SPAN]);
    let (w, l, c) = (words.as_mut_ptr(), labels.as_mut_ptr(), certificate.as_mut_ptr());
    // Every pointer is that of an array or a vector of the length beside it.
    let answer = unsafe { jennydusk_certify(label, text.as_ptr(), text.len(), w, MOST_WORDS, l, MOST_WORDS, c, SPAN) };
    match (answer % NUMBERS, answer / NUMBERS, certificate) {
        (DONE, _, [cause, tick, place]) => println!("V,{cause},{tick},{place}"),
        (number, line, _) => println!("X,{number},{line}"),
    }
}
