//! `steps` reads an image on standard input and prints how many steps its run
//! does; 0 for one that is refused.

#![forbid(unsafe_code)]

use interpreter::load;
use interpreter::machine::{end, MAX_SIZE};
use std::io::{self, Read};

fn main() -> io::Result<()> {
    let mut text = Vec::new();
    io::stdin().read_to_end(&mut text)?;
    println!("{}", count(&text));
    Ok(())
}

/// "A run steps until the end isn't 0."
fn count(text: &[u8]) -> u64 {
    let mut words = vec![0; MAX_SIZE as usize];
    let mut labels = vec![0; MAX_SIZE as usize];
    let Ok(mut machine) = load(text, &mut words, &mut labels) else {
        return 0;
    };
    let mut steps = 0;
    while machine.end == end::RUNNING {
        machine.step(&mut words, &labels).expect("a loaded record stays fit");
        steps += 1;
    }
    steps
}
