//! `generate SEED COUNT DIR` writes COUNT numbered images into DIR, the same
//! for the same seed, and prints what running them meets.

#![forbid(unsafe_code)]

use interpreter::generator::Generator;
use std::path::PathBuf;
use std::process::ExitCode;
use std::{env, fs, io};

/// What the command line asks for.
struct Order {
    seed: u64,
    count: u64,
    folder: PathBuf,
}

fn main() -> ExitCode {
    let Some(order) = read_order() else {
        eprintln!("usage: generate SEED COUNT DIR");
        return ExitCode::FAILURE;
    };
    match write_images(&order) {
        Ok(()) => ExitCode::SUCCESS,
        Err(error) => {
            eprintln!("generate: {error}");
            ExitCode::FAILURE
        }
    }
}

fn read_order() -> Option<Order> {
    let mut arguments = env::args().skip(1);
    let seed = arguments.next()?.parse().ok()?;
    let count = arguments.next()?.parse().ok()?;
    let folder = PathBuf::from(arguments.next()?);
    Some(Order { seed, count, folder })
}

fn write_images(order: &Order) -> io::Result<()> {
    fs::create_dir_all(&order.folder)?;
    let mut generator = Generator::new(order.seed);
    for number in 0..order.count {
        let image = generator.next_image();
        fs::write(order.folder.join(format!("{number:06}.txt")), image)?;
    }
    print!("{}", generator.census);
    Ok(())
}
