// Loads a small image, runs it and prints the listing.
use std::io::Write;

// Each buffer goes as a pointer and a length. include/jennydusk.h has the meaning of each call.
#[rustfmt::skip]
#[link(name = "jennydusk", kind = "static")]
unsafe extern "C" {
    fn jennydusk_load(text: *const u8, text_length: usize, words: *mut u32, words_length: usize, labels: *mut u8, labels_length: usize, record: *mut u64, record_length: usize) -> u64;
    fn jennydusk_run(record: *mut u64, record_length: usize, words: *mut u32, words_length: usize, labels: *mut u8, labels_length: usize) -> u64;
    fn jennydusk_print(record: *const u64, record_length: usize, words: *const u32, words_length: usize, labels: *const u8, labels_length: usize, output: *mut u8, output_length: usize) -> u64;
}

// JENNYDUSK_SPAN and JENNYDUSK_DONE. An answer is a number below NUMBERS, with a line or a length above it.
const SPAN: usize = 76;
const DONE: u64 = 0;
const NUMBERS: u64 = 256;

const SIZE: usize = 8;
const IMAGE: &[u8] = b"M,8,7,0,240,240,100\nW,0,240,17825797\nW,1,240,34672640\nW,2,240,369098752\n";

fn main() {
    let (mut record, mut words, mut labels, mut output) = ([0u64; SPAN], [0u32; SIZE], [0u8; SIZE], [0u8; 1024]);
    let (r, w, l) = (record.as_mut_ptr(), words.as_mut_ptr(), labels.as_mut_ptr());
    // Every pointer is that of an array of the length beside it.
    let mut answer = unsafe { jennydusk_load(IMAGE.as_ptr(), IMAGE.len(), w, SIZE, l, SIZE, r, SPAN) };
    if answer == DONE {
        answer = unsafe { jennydusk_run(r, SPAN, w, SIZE, l, SIZE) };
    }
    if answer == DONE {
        answer = unsafe { jennydusk_print(r, SPAN, w, SIZE, l, SIZE, output.as_mut_ptr(), output.len()) };
    }
    let (number, count) = (answer % NUMBERS, (answer / NUMBERS) as usize);
    if number != DONE {
        println!("X,{number},{count}");
        std::process::exit(1);
    }
    std::io::stdout().write_all(&output[..count]).unwrap();
}
