//! The program `hexfiring`: a label and the file of an M text as arguments, the
//! records of HEX on standard input, the listing on standard output.

#![forbid(unsafe_code)]

use interpreter::fire_hex;
use interpreter::load::read_label;
use std::io::{self, Read, Write};
use std::process::ExitCode;
use std::{env, fs};

fn main() -> io::Result<ExitCode> {
    let arguments: Vec<String> = env::args().skip(1).collect();
    let chosen = match &arguments[..] {
        [label, file] => read_label(label).map(|label| (label, file)),
        _ => None,
    };
    let Some((label, file)) = chosen else {
        eprintln!("usage: hexfiring_rs LABEL M_FILE");
        return Ok(ExitCode::FAILURE);
    };
    let (text, mut hex) = (fs::read(file)?, Vec::new());
    io::stdin().read_to_end(&mut hex)?;
    io::stdout().write_all(&fire_hex(&text, &hex, label))?;
    Ok(ExitCode::SUCCESS)
}
