//! Times `run` on five loops of 16,777,216 ticks, all in one process.
//!
//! `loops` prints for each its name, the seconds, the steps and the nanoseconds
//! per step. `loops DIR` writes the five images into DIR instead, one file each.

#![forbid(unsafe_code)]

use interpreter::loops::{loops, Loop};
use interpreter::machine::{end, MAX_SIZE};
use interpreter::{load, Machine};
use std::path::Path;
use std::time::Instant;
use std::{env, fs, io};

/// A machine with the memory that it runs in.
struct Loaded {
    machine: Machine,
    words: Vec<u32>,
    labels: Vec<u8>,
}

fn main() -> io::Result<()> {
    match env::args().nth(1) {
        Some(folder) => write_images(Path::new(&folder)),
        None => {
            loops().iter().for_each(time);
            Ok(())
        }
    }
}

/// Writes the images to files, so that another program can be fed the same.
fn write_images(folder: &Path) -> io::Result<()> {
    fs::create_dir_all(folder)?;
    for Loop { name, image } in loops() {
        fs::write(folder.join(format!("{name}.txt")), image.text())?;
    }
    Ok(())
}

/// Loads the image from its text, as any program would.
fn load_image(case: &Loop) -> Loaded {
    let mut words = vec![0; MAX_SIZE as usize];
    let mut labels = vec![0; MAX_SIZE as usize];
    let machine = load(&case.image.text(), &mut words, &mut labels);
    Loaded { machine: machine.expect("the loop's image is accepted"), words, labels }
}

/// The steps are counted in a second, untimed pass: `run` itself keeps no count.
fn count_steps(case: &Loop) -> u64 {
    let Loaded { mut machine, mut words, labels } = load_image(case);
    let mut steps = 0;
    while machine.end == end::RUNNING {
        machine.step(&mut words, &labels).expect("a loaded record stays fit");
        steps += 1;
    }
    steps
}

/// Times one run and prints its line.
fn time(case: &Loop) {
    let steps = count_steps(case);
    let Loaded { mut machine, mut words, labels } = load_image(case);
    let start = Instant::now();
    machine.run(&mut words, &labels).expect("a loaded record is fit");
    let seconds = start.elapsed().as_secs_f64();
    let per_step = seconds * 1e9 / steps as f64;
    println!("{:<14} {seconds:.4} s {steps:>9} steps {per_step:.2} ns/step", case.name);
}
