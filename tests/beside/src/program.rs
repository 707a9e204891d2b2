//! What a program prints for an input.

use std::io::{self, Write};
use std::process::{Command, Stdio};
use std::thread;

/// A run of the greatest limit takes a fraction of a second.
const SECONDS: &str = "20";

/// Runs a program with these arguments and gives its standard output.
pub fn run(program: &str, arguments: &[&str], input: &[u8]) -> io::Result<Vec<u8>> {
    let mut command = Command::new("timeout");
    command.args([SECONDS, program]).args(arguments);
    let mut child = command.stdin(Stdio::piped()).stdout(Stdio::piped()).spawn()?;
    let stdin = child.stdin.take();
    // The program may stop reading an input that is too long, and it may print
    // before it has read all: so the input is written from aside.
    thread::scope(|scope| {
        scope.spawn(move || stdin.map(|mut pipe| pipe.write_all(input)));
        child.wait_with_output().map(|output| output.stdout)
    })
}
