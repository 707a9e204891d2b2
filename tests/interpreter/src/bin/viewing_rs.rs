//! The program `viewing`: an image on standard input, what a label sees of it at
//! a tick on standard output.

#![forbid(unsafe_code)]

use interpreter::fire_for;
use interpreter::load::MAX_TEXT;
use interpreter::view::read_arguments;
use std::env;
use std::io::{self, Read, Write};
use std::process::ExitCode;

fn main() -> io::Result<ExitCode> {
    let arguments: Vec<String> = env::args().skip(1).collect();
    let viewer = match &arguments[..] {
        [label, tick] => read_arguments(label, tick),
        _ => None,
    };
    let Some((label, tick)) = viewer else {
        eprintln!("usage: viewing_rs LABEL TICK");
        return Ok(ExitCode::FAILURE);
    };
    io::stdout().write_all(&fire_for(&read_text()?, label, tick))?;
    Ok(ExitCode::SUCCESS)
}

/// One byte more than the longest text is enough to know that a text is "above
/// 65,535 bytes".
fn read_text() -> io::Result<Vec<u8>> {
    let mut text = Vec::new();
    io::stdin().lock().take(MAX_TEXT as u64 + 1).read_to_end(&mut text)?;
    Ok(text)
}
