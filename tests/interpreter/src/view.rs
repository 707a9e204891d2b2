//! A listing for one viewer: what a label sees of a firing at a tick.
//!
//! Document 01 has none. The sentences quoted here are those of the owner's
//! later request: "Given an image, a viewer's label and a tick, run to that tick
//! and list what the label sees"; and those of document 01 on what is seen and
//! on the state at a tick.

use crate::label::Label;
use crate::load::{load, read_label, read_number, Refusal};
use crate::machine::{end, Machine};
use crate::print::{call_line, end_line, location_line, write};
use crate::TICK_ABOVE_LIMIT;

/// Why nothing is listed: the number, and beside it the line of "a refused
/// image" or, at 10, "the limit"; 0 where there is neither.
#[derive(Clone, Copy, Debug, PartialEq, Eq)]
pub struct NoView {
    pub number: u8,
    pub value: u64,
}

impl From<Refusal> for NoView {
    fn from(Refusal { number, line }: Refusal) -> NoView {
        NoView { number, value: line }
    }
}

/// "Given an image, a viewer's label and a tick, run to that tick and list what
/// the label sees." Gives the listing's length. "10, tick above the limit, tried
/// once the image is loaded, with the limit, memory as loaded; it and a refused
/// image leave the output." "Memory afterwards is that of the tick, also when
/// the output is too short (8)": the run comes before the listing.
pub fn view(
    text: &[u8],
    viewer: Label,
    tick: u64,
    words: &mut [u32],
    labels: &mut [u8],
    output: &mut [u8],
) -> Result<usize, NoView> {
    let mut machine = load(text, words, labels)?;
    if tick > machine.limit {
        return Err(NoView { number: TICK_ABOVE_LIMIT, value: machine.limit });
    }
    let listed = machine
        .run_to(words, labels, tick)
        .and_then(|()| print_for(&machine, words, labels, viewer, output));
    listed.map_err(|number| NoView { number, value: 0 })
}

impl Machine {
    /// "run to that tick": to document 01's state at it, "that after the last
    /// step finishing at or before k". A record that has come further already is
    /// left, and a tick above the limit runs to the end. 7 and 6 are tried as by
    /// the run.
    pub fn run_to(&mut self, words: &mut [u32], labels: &[u8], tick: u64) -> Result<(), u8> {
        self.try_call(words, labels)?;
        let words = &mut words[..self.size as usize];
        while self.end == end::RUNNING {
            if !self.step_by(words, labels, tick)? {
                break;
            }
        }
        Ok(())
    }

    /// Does the step if it finishes at or before the tick, and says whether it
    /// does. "A step finishes at the clock that it leaves", so it is done on a
    /// copy of the record and the words, and the copy is kept or dropped.
    fn step_by(&mut self, words: &mut [u32], labels: &[u8], tick: u64) -> Result<bool, u8> {
        let (mut next, mut next_words) = (self.clone(), words.to_vec());
        next.step(&mut next_words, labels)?;
        let in_time = next.clock <= tick;
        if in_time {
            *self = next;
            words.copy_from_slice(&next_words);
        }
        Ok(in_time)
    }
}

/// Lists what a label sees of a record and its memory. Gives the length; the
/// refusals are those of printing, "7, 6, 8".
pub fn print_for(
    machine: &Machine,
    words: &[u32],
    labels: &[u8],
    viewer: Label,
    output: &mut [u8],
) -> Result<usize, u8> {
    machine.try_call(words, labels)?;
    write(&listing_for(machine, words, labels, viewer), output)
}

/// "list what the label sees": the control, the registers, and the "words below
/// the size".
fn listing_for(machine: &Machine, words: &[u32], labels: &[u8], viewer: Label) -> String {
    let registers = machine.registers.iter().map(|register| (register.label, register.value));
    let memory = labels.iter().map(|&label| Label(label)).zip(words.iter().copied());
    control_lines(machine, viewer)
        + &seen_lines('R', registers, viewer)
        + &seen_lines('W', memory.take(machine.size as usize), viewer)
}

/// "If the place label doesn't flow to it, a line `H` stands for the E and F
/// lines."
fn control_lines(machine: &Machine, viewer: Label) -> String {
    if !machine.pair.pc.flows_to(viewer) {
        return "H\n".to_string();
    }
    end_line(machine) + &call_line(machine.first) + &call_line(machine.second)
}

/// "R and W lines are those seen that differ from value 0 and the lowest label."
/// What is seen has a label "flowing to ℓ".
fn seen_lines(
    letter: char,
    locations: impl Iterator<Item = (Label, u32)>,
    viewer: Label,
) -> String {
    let seen = locations.enumerate().filter(|(_, (label, _))| label.flows_to(viewer));
    seen.map(|(number, (label, value))| location_line(letter, number, label, value)).collect()
}

/// A viewer's label and a tick, written as numbers are in a text: "one to ten
/// digits without leading zeros", and the label below 256.
pub fn read_arguments(label: &str, tick: &str) -> Option<(Label, u64)> {
    Some((read_label(label)?, read_number(tick.as_bytes())?))
}
