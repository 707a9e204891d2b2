//! `hex HEXFIRING [SEED [COUNT]]` compares loads from HEX on COUNT generated
//! images, good and damaged: the library's with the interpreter's, and the
//! listings of the program HEXFIRING with the interpreter's. It prints what was
//! met; the last line is 'N passed, M failed'.

#![forbid(unsafe_code)]

use beside::hex_loads::{expected, HexTrial, Source};
use beside::program::run;
use beside::tally::Tally;
use beside::trials::Trials;
use beside::verdict::behind_difference;
use interpreter::fire_hex;
use interpreter::generator::hex::HexImage;
use interpreter::generator::random::Random;
use std::path::PathBuf;
use std::process::{self, ExitCode};
use std::{env, fs, io};

/// Differences are shown up to this number.
const SHOWN: u64 = 5;

/// Each image is loaded so often, in buffers of other lengths.
const LOADS: u32 = 3;

/// What the program prints begins with one of these: of a listing, or a refusal's
/// number. 6 doesn't come up, for the program lends enough.
const STARTS: [&str; 8] = ["E,", "X,1,", "X,2,", "X,3,", "X,4,", "X,5,", "X,11,", "X,12,"];

/// The program, and the file from which it reads its M text.
struct Program {
    name: String,
    file: PathBuf,
}

fn main() -> ExitCode {
    let words: Vec<String> = env::args().skip(1).collect();
    let Some(name) = words.first() else {
        eprintln!("usage: hex HEXFIRING [SEED [COUNT]]");
        return ExitCode::FAILURE;
    };
    let number = |at: usize| words.get(at).and_then(|word| word.parse().ok());
    let mut random = Random::new(number(1).unwrap_or(1));
    let mut names = expected();
    names.extend(STARTS.map(printed));
    let mut trials = Trials::new(Tally::expecting(names));
    let program = Program::new(name);
    let mut source = Source::new();
    for _ in 0..number(2).unwrap_or(4_000) {
        let trial = source.next(&mut trials, &mut random);
        (0..LOADS).for_each(|_| trial.try_load(&mut trials, &mut random));
        program.try_listing(&mut trials, &trial);
    }
    trials.finish()
}

/// The name under which a listing or an X line is counted.
fn printed(start: &str) -> String {
    format!("program, {start}..")
}

impl Program {
    fn new(name: &str) -> Program {
        let file = env::temp_dir().join(format!("hex-{}.txt", process::id()));
        Program { name: name.to_string(), file }
    }

    /// What the program prints for an image.
    fn print(&self, image: &HexImage) -> io::Result<Vec<u8>> {
        fs::write(&self.file, &image.text)?;
        let arguments = [&image.label.0.to_string(), &*self.file.to_string_lossy()];
        run(&self.name, &arguments, &image.hex)
    }

    /// The program and the interpreter print the same.
    fn try_listing(&self, trials: &mut Trials, trial: &HexTrial) {
        let HexImage { text, hex, label } = &trial.image;
        let theirs = fire_hex(text, hex, *label);
        let ours = self.print(&trial.image).unwrap_or_else(|error| error.to_string().into_bytes());
        let met = STARTS.iter().filter(|start| theirs.starts_with(start.as_bytes()));
        met.for_each(|start| trials.tally.count(&printed(start)));
        if ours == theirs {
            trials.passed += 1;
            return;
        }
        trials.failed += 1;
        if trials.failed <= SHOWN {
            println!("two listings of {}", trial.shown());
            println!("by {}\n{}", self.name, String::from_utf8_lossy(&ours));
            println!("by the interpreter\n{}", String::from_utf8_lossy(&theirs));
        }
        behind_difference();
    }
}

impl Drop for Program {
    fn drop(&mut self) {
        // Where no image was tried there is no file.
        let _ = fs::remove_file(&self.file);
    }
}
