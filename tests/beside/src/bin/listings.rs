//! `listings FIRING [SEED [COUNT]]` compares the listings of the program FIRING
//! with the interpreter's on generated images, good and damaged. It prints what
//! the images met; the last line is 'N passed, M failed'. A difference prints the
//! image, both listings, and the first step at which they part.

#![forbid(unsafe_code)]

use beside::parting::first_parting;
use beside::program::run;
use beside::verdict::{behind_difference, close};
use interpreter::fire;
use interpreter::generator::Generator;
use std::env;
use std::process::ExitCode;

/// Differences are shown up to this number.
const SHOWN: u64 = 3;

fn main() -> ExitCode {
    let words: Vec<String> = env::args().skip(1).collect();
    let Some(program) = words.first() else {
        eprintln!("usage: listings FIRING [SEED [COUNT]]");
        return ExitCode::FAILURE;
    };
    let number = |at: usize| words.get(at).and_then(|word| word.parse().ok());
    let mut generator = Generator::new(number(1).unwrap_or(1));
    let (mut passed, mut failed) = (0, 0);
    for _ in 0..number(2).unwrap_or(6_000) {
        if is_same(program, &generator.next_image(), failed < SHOWN) {
            passed += 1;
        } else {
            failed += 1;
            behind_difference();
        }
    }
    print!("{}", generator.census);
    let strange = generator.census.strange().len() as u64;
    close(passed, failed + strange, generator.census.unmet().len())
}

/// Whether both give one listing; what differs is shown if wanted.
fn is_same(program: &str, text: &[u8], show: bool) -> bool {
    let theirs = fire(text);
    let ours = run(program, &[], text).unwrap_or_else(|error| format!("{error}\n").into_bytes());
    if ours != theirs && show {
        println!("two listings of\n{}", String::from_utf8_lossy(text));
        println!("by {program}\n{}", String::from_utf8_lossy(&ours));
        println!("by the interpreter\n{}", String::from_utf8_lossy(&theirs));
        println!("{}", first_parting(text));
    }
    ours == theirs
}
