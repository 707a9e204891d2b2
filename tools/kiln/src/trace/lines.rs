//! The lines of a trace: a tick, a pc, an op and what changes.

use crate::library::{Machine, WHY_LABEL, WHY_OP, WHY_PC};
use crate::ops;
use std::io::{self, Write};

/// What stands where the control is out of sight.
pub const HIDDEN: &str = "H";
/// What stands where there is no op.
pub const NONE: &str = "-";

pub fn header(output: &mut impl Write) -> io::Result<()> {
    line(output, ["tick", "pc", "op", "what changes"])
}

/// The line of a step from a state whose control is within sight.
pub fn step(
    output: &mut impl Write,
    tick: u64,
    before: &Machine,
    changes: &[String],
) -> io::Result<()> {
    line(output, [&tick.to_string(), &before.pc().to_string(), &op(before), &changes.join("; ")])
}

pub fn line(output: &mut impl Write, columns: [&str; 4]) -> io::Result<()> {
    let [tick, pc, op, changes] = columns;
    let line = format!("{tick:>8} {pc:>5}  {op:<40} {changes}");
    writeln!(output, "{}", line.trim_end())
}

/// A line that goes on with what changes.
pub fn more(output: &mut impl Write, change: &str) -> io::Result<()> {
    line(output, ["", "", "", change])
}

/// The op that a state is about to do. A word is told only if it is fetched: its
/// label then flows to the pc label, so whoever sees the control sees it.
fn op(machine: &Machine) -> String {
    match machine.why_fetch_fails() {
        WHY_PC => "fetch fails: pc not below the size".to_string(),
        WHY_LABEL => "fetch fails: label of the word".to_string(),
        WHY_OP => "fetch fails: unknown op".to_string(),
        _ => ops::in_words(machine.word(machine.pc() as usize).value),
    }
}
