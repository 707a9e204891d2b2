//! `throughput [ROUNDS]` times the library's calls beside the interpreter's in
//! one process: load and print of the longest image, and the run of each loop
//! under limits from 2^16 to 2^24 ticks. Each time is the best of the rounds.

#![forbid(unsafe_code)]

use beside::buffers::Lent;
use beside::calls::{count, Calls};
use beside::layout::at;
use beside::library::Library;
use beside::other::Other;
use interpreter::draft::Draft;
use interpreter::loops::loops;
use interpreter::machine::{MAX_SIZE, ZERO_REGISTER};
use interpreter::Pair;
use std::env;
use std::time::Instant;

/// So many calls are timed together: one load takes microseconds.
const CALLS: u32 = 100;

/// The exponents of the limits.
const LIMITS: [u32; 5] = [16, 18, 20, 22, 24];

fn main() {
    let rounds = env::args().nth(1).and_then(|word| word.parse().ok()).unwrap_or(7);
    show_text(rounds);
    show_growth(rounds);
}

/// All registers but register 0 and all words set, with labels and values of most
/// digits.
fn longest() -> Vec<u8> {
    let mut draft = Draft::new(MAX_SIZE as usize, 0, 0, Pair::new(240, 240), 1);
    draft.registers[ZERO_REGISTER + 1..].iter_mut().chain(&mut draft.words).for_each(|location| {
        location.value = u32::MAX;
    });
    draft.text()
}

/// The seconds of the best round.
fn best(rounds: u32, mut work: impl FnMut()) -> f64 {
    let mut best = f64::INFINITY;
    for _ in 0..rounds {
        let start = Instant::now();
        work();
        best = best.min(start.elapsed().as_secs_f64());
    }
    best
}

/// Load and print of the longest image, by bytes and by lines.
fn show_text(rounds: u32) {
    let text = longest();
    let lines = text.iter().filter(|&&byte| byte == b'\n').count() as f64;
    println!("{:<16} {:>12} {:>12} {:>8}", "longest image", "ours, MB/s", "Rust, MB/s", "ratio");
    let mut lent = Lent::whole();
    let mut load = |calls: &dyn Calls| {
        best(rounds, || (0..CALLS).for_each(|_| assert_eq!(lent.load(calls, &text), 0)))
    };
    let loads = (load(&Library), load(&Other));
    show_rate("load", text.len(), lines, loads);
    let mut length = 0;
    let mut print = |calls: &dyn Calls| {
        best(rounds, || (0..CALLS).for_each(|_| length = count(lent.print(calls))))
    };
    let prints = (print(&Library), print(&Other));
    show_rate("print", length as usize, lines, prints);
}

/// A row of `show_text`, from the seconds that the calls took.
fn show_rate(name: &str, bytes: usize, lines: f64, (ours, theirs): (f64, f64)) {
    let megabytes = bytes as f64 * f64::from(CALLS) / 1e6;
    let (rate, other) = (megabytes / ours, megabytes / theirs);
    let ratio = theirs / ours;
    let line = ours * 1e9 / f64::from(CALLS) / lines;
    println!(
        "{name:<16} {rate:>12.1} {other:>12.1} {ratio:>8.2}   {line:.0} ns a line, {bytes} bytes"
    );
}

/// The library's run of each loop by limit, in milliseconds, and how many times
/// as long the longest takes as the shortest, which has a 256th of its ticks.
fn show_growth(rounds: u32) {
    let limits = LIMITS.map(|power| format!(" {:>10}", format!("2^{power}")));
    println!("{:<16}{} {:>8}   library's run, ms by ticks", "loop", limits.concat(), "times");
    for case in loops() {
        let text = case.image.text();
        let times = LIMITS.map(|power| run_time(rounds, &text, 1 << power) * 1e3);
        let shown = times.map(|time| format!(" {time:>10.3}"));
        println!("{:<16}{} {:>8.1}", case.name, shown.concat(), times[4] / times[0]);
    }
}

/// The best time of a run under this limit.
fn run_time(rounds: u32, text: &[u8], limit: u64) -> f64 {
    let mut loaded = Lent::whole();
    assert_eq!(loaded.load(&Library, text), 0);
    loaded.record.get_mut()[at::LIMIT] = limit;
    let mut lent = loaded.clone();
    best(rounds, || {
        lent.record.get_mut().copy_from_slice(loaded.record.get());
        lent.run(&Library);
    })
}
