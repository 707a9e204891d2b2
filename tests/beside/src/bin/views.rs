//! `views [SEED [COUNT]]` compares the library's views with the interpreter's on
//! COUNT generated images, at the ticks of their steps and beside them, and on as
//! many damaged texts; its runs from tick to tick; and its views of long loops. It
//! prints what was met; the last line is 'N passed, M failed'.

#![forbid(unsafe_code)]

use beside::chains::{self, try_chain};
use beside::fired::Fired;
use beside::long_views::{self, try_loops};
use beside::tally::Tally;
use beside::trials::Trials;
use beside::views::{self, try_damaged, try_image};
use interpreter::generator::random::Random;
use std::env;
use std::process::ExitCode;

fn main() -> ExitCode {
    let numbers: Vec<u64> = env::args().skip(1).filter_map(|word| word.parse().ok()).collect();
    let number = |at: usize, usual: u64| numbers.get(at).copied().unwrap_or(usual);
    let mut random = Random::new(number(0, 1));
    let mut expected = views::expected();
    expected.extend(chains::EXPECTED.map(str::to_string));
    expected.extend(long_views::EXPECTED.map(str::to_string));
    let mut trials = Trials::new(Tally::expecting(expected));
    for turn in 0..number(1, 2_000) as usize {
        let fired = Fired::make(&mut random);
        try_image(&mut trials, &mut random, &fired);
        try_chain(&mut trials, &mut random, &fired);
        try_damaged(&mut trials, &mut random, turn);
    }
    try_loops(&mut trials, &mut random);
    trials.finish()
}
