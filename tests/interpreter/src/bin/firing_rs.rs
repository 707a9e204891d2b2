//! The program `firing`: an image on standard input, its listing on standard
//! output.

#![forbid(unsafe_code)]

use interpreter::fire;
use interpreter::load::MAX_TEXT;
use std::io::{self, Read, Write};

/// "Program `firing` reads standard input, runs to the end and prints ... In
/// the program a refusal prints `X,number,line`."
fn main() -> io::Result<()> {
    let text = read_text()?;
    io::stdout().write_all(&fire(&text))
}

/// One byte more than the longest text is enough to know that a text is "above
/// 65,535 bytes".
fn read_text() -> io::Result<Vec<u8>> {
    let mut text = Vec::new();
    io::stdin().lock().take(MAX_TEXT as u64 + 1).read_to_end(&mut text)?;
    Ok(text)
}
