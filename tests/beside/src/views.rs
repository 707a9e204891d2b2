//! Trials of views: accepted images at the ticks of their steps and beside them,
//! and damaged texts, in memory and output of every length.
//!
//! What answer is due, and what must be left, follows from the states of the run
//! and from how the buffers were made.

use crate::buffers::Lent;
use crate::calls::{answer, number, Calls, Viewer, MEMORY_SHORT, OUTPUT_SHORT, TICK_LATE};
use crate::fired::{choose_viewer, hides, listing_for, Fired};
use crate::loads::{dirty, size_of, Text};
use crate::pairs::seen::State;
use crate::tally::Tally;
use crate::trials::{Due, Lending, Trials, LENDINGS};
use interpreter::generator::random::Random;
use interpreter::machine::end;
use interpreter::{Event, Label, Register};

/// How much output is lent, against the listing's length.
const OUTPUTS: [&str; 4] = ["just the listing", "short by one", "none", "longer"];

/// Ops of more than one tick: a tick can come before their end.
const LONG_OPS: [u8; 11] = [8, 9, 10, 15, 16, 17, 18, 20, 21, 23, 24];

/// So many labels view an image at each tick.
const VIEWERS: u32 = 2;

/// What else must come up.
const EXPECTED: [&str; 23] = [
    "view, 6 before 8",
    "view, 6 before 10",
    "view, 10 before 8",
    "view, a damaged text before 8",
    "view, a damaged text before 10",
    "view, memory as loaded at 10 though the run changes it",
    "view, memory of the tick at 8 though it is not as loaded",
    "view, no step done by the tick",
    "view, a stall at the tick",
    "view, a halt at the tick",
    "view, the clock spent at the tick",
    "view, an end before the tick",
    "view, a step from the tick on not begun",
    "view, the close of an upcall cut",
    "view, the clock not spent yet",
    "view, tick 2^32",
    "view, tick 2^64 - 1",
    "view, an E line alone",
    "view, an E line with F lines",
    "view, an H line alone",
    "view, an H line with others",
    "view, a register hidden",
    "view, a word hidden",
];

/// All that must come up.
pub fn expected() -> Vec<String> {
    let mut names = EXPECTED.map(str::to_string).to_vec();
    let numbers = (0..=6).chain([8, 9, 10]);
    names.extend(numbers.map(|number| format!("view, answer {number}")));
    names.extend(LENDINGS.iter().map(|lending| format!("view, {}", lending.name)));
    names.extend(OUTPUTS.map(|name| format!("view, output {name}")));
    names.extend(LONG_OPS.map(|op| format!("view, op {op} cut")));
    names
}

/// What is lent to a call, and what it must answer and leave.
pub struct Trial {
    pub before: Lent,
    pub due: u64,
    pub after: Lent,
}

impl Trial {
    /// The library and the interpreter make the call.
    pub fn make(
        &self,
        trials: &mut Trials,
        name: &str,
        call: impl Fn(&dyn Calls, &mut Lent) -> u64,
    ) {
        let left = |_: u64, lent: &Lent| *lent == self.after;
        trials.compare_leaving(name, call, &self.before, Due::Answer(self.due), left);
    }

    /// They view a text.
    fn view(&self, trials: &mut Trials, text: &[u8], viewer: Viewer) {
        let name = format!("{viewer:?} of\n{}", String::from_utf8_lossy(text));
        self.make(trials, &name, |calls, lent| lent.view(calls, text, viewer));
        trials.tally.count(&format!("view, answer {}", number(self.due)));
    }
}

/// What is lent, with the memory of a state in it.
pub fn with_memory(mut lent: Lent, state: &State) -> Lent {
    let size = state.words.len();
    lent.words.get_mut()[..size].copy_from_slice(&state.words);
    lent.labels.get_mut()[..size].copy_from_slice(&state.labels);
    lent
}

/// What is lent, with a listing at the start of the output.
pub fn with_listing(mut lent: Lent, listing: &str) -> Lent {
    lent.output.get_mut()[..listing.len()].copy_from_slice(listing.as_bytes());
    lent
}

/// Some lending, mostly just the memory.
fn choose_lending(random: &mut Random) -> Lending {
    if random.chance(80) {
        return LENDINGS[0];
    }
    random.pick(&LENDINGS)
}

/// Views of an image at its ticks.
pub fn try_image(trials: &mut Trials, random: &mut Random, fired: &Fired) {
    for tick in fired.ticks(random) {
        for _ in 0..VIEWERS {
            let viewer = Viewer { label: choose_viewer(random, fired.at(tick)), tick };
            try_view(trials, random, fired, viewer);
        }
    }
}

/// One view, in memory and output of some lengths.
fn try_view(trials: &mut Trials, random: &mut Random, fired: &Fired, viewer: Viewer) {
    let (state, size) = (fired.at(viewer.tick), fired.loaded().words.len());
    let listing = listing_for(state, viewer.label);
    let mut lent = dirty(random, 0, size);
    let lending = choose_lending(random);
    lending.apply(random, &mut lent, size);
    lend_output(trials, random, &mut lent, listing.len());
    let tally = &mut trials.tally;
    tally.count(&format!("view, {}", lending.name));
    let trial = if lending.is_short() {
        short_memory(tally, lent, fired, viewer, &listing)
    } else if viewer.tick > fired.limit {
        late_tick(tally, lent, fired, viewer, &listing)
    } else {
        count_tick(tally, fired, viewer.tick);
        count_lines(tally, state, viewer.label, &listing);
        at_tick(tally, lent, fired, viewer, &listing)
    };
    trial.view(trials, &fired.text, viewer);
}

/// Lends output of some length for a listing.
fn lend_output(trials: &mut Trials, random: &mut Random, lent: &mut Lent, length: usize) {
    let choice = random.weighted(&[4, 2, 1, 2]);
    let lend = [length, length - 1, 0, length + random.index(50) + 1][choice];
    lent.output.lend(lend, random.bits() as u8);
    trials.tally.count(&format!("view, output {}", OUTPUTS[choice]));
}

/// Whether the output that is lent is shorter than the listing.
fn is_short(lent: &Lent, listing: &str) -> bool {
    lent.output.get().len() < listing.len()
}

/// Too short a memory is the load's refusal, and all is left.
fn short_memory(
    tally: &mut Tally,
    before: Lent,
    fired: &Fired,
    viewer: Viewer,
    listing: &str,
) -> Trial {
    tally.count_if(viewer.tick > fired.limit, "view, 6 before 10");
    tally.count_if(is_short(&before, listing), "view, 6 before 8");
    Trial { due: answer(MEMORY_SHORT, 1), after: before.clone(), before }
}

/// "10, tick above the limit, tried once the image is loaded, with the limit,
/// memory as loaded; it and a refused image leave the output."
fn late_tick(
    tally: &mut Tally,
    before: Lent,
    fired: &Fired,
    viewer: Viewer,
    listing: &str,
) -> Trial {
    let changes = fired.loaded().words != fired.last().words;
    tally.count_if(is_short(&before, listing), "view, 10 before 8");
    tally.count_if(changes, "view, memory as loaded at 10 though the run changes it");
    tally.count_if(viewer.tick == 1 << 32, "view, tick 2^32");
    tally.count_if(viewer.tick == u64::MAX, "view, tick 2^64 - 1");
    let after = with_memory(before.clone(), fired.loaded());
    Trial { due: answer(TICK_LATE, fired.limit), after, before }
}

/// "Memory afterwards is that of the tick, also when the output is too short
/// (8)."
fn at_tick(tally: &mut Tally, before: Lent, fired: &Fired, viewer: Viewer, listing: &str) -> Trial {
    let state = fired.at(viewer.tick);
    let after = with_memory(before.clone(), state);
    if is_short(&before, listing) {
        let changed = fired.loaded().words != state.words;
        tally.count_if(changed, "view, memory of the tick at 8 though it is not as loaded");
        return Trial { due: answer(OUTPUT_SHORT, 0), after, before };
    }
    let after = with_listing(after, listing);
    Trial { due: answer(0, listing.len() as u64), after, before }
}

/// Counts what the tick comes upon.
fn count_tick(tally: &mut Tally, fired: &Fired, tick: u64) {
    let machine = &fired.at(tick).machine;
    let is_at = machine.clock == tick;
    tally.count_if(*machine == fired.loaded().machine, "view, no step done by the tick");
    match (machine.end, is_at) {
        (end::RUNNING, _) => count_next(tally, fired, tick, is_at),
        (end::STALLED, true) => tally.count("view, a stall at the tick"),
        (end::HALTED, true) => tally.count("view, a halt at the tick"),
        (end::SPENT, true) => tally.count("view, the clock spent at the tick"),
        _ => tally.count("view, an end before the tick"),
    }
}

/// Counts which step is not done any more: one that begins at the tick, or one
/// that the tick would cut in two.
fn count_next(tally: &mut Tally, fired: &Fired, tick: u64, is_at: bool) {
    let Some(next) = fired.next_after(tick) else {
        return;
    };
    match next.event {
        Event::Spent | Event::SpentClosing(_) => tally.count("view, the clock not spent yet"),
        _ if is_at => tally.count("view, a step from the tick on not begun"),
        Event::Closed(_) => tally.count("view, the close of an upcall cut"),
        _ => tally.count(&format!("view, op {} cut", next.op)),
    }
}

/// Counts what the label sees.
fn count_lines(tally: &mut Tally, state: &State, viewer: Label, listing: &str) {
    let is_alone = listing.lines().count() == 1;
    match (state.shows_control(viewer), is_alone) {
        (true, true) => tally.count("view, an E line alone"),
        (true, false) => tally.count_if(listing.contains("\nF,"), "view, an E line with F lines"),
        (false, true) => tally.count("view, an H line alone"),
        (false, false) => tally.count("view, an H line with others"),
    }
    let words: Vec<Register> = (0..state.words.len()).map(|at| state.word(at)).collect();
    tally.count_if(hides(&state.machine.registers, viewer), "view, a register hidden");
    tally.count_if(hides(&words, viewer), "view, a word hidden");
}

/// A view of a damaged text, at a tick and in an output that may be refused too.
/// It is refused as by load, and leaves all.
pub fn try_damaged(trials: &mut Trials, random: &mut Random, turn: usize) {
    let text = Text::damaged(random, turn);
    let size = size_of(&text.bytes);
    let lending = choose_lending(random);
    let mut before = dirty(random, 0, size);
    lending.apply(random, &mut before, size);
    before.output.lend(random.pick(&[0, 1, 65_536]), random.bits() as u8);
    let is_late = random.chance(60);
    let tick = if is_late { random.pick(&[1 << 32, u64::MAX]) } else { 0 };
    let viewer = Viewer { label: Label(random.bits() as u8), tick };
    let (number, line) = text.refused().within(lending);
    let has_output = !before.output.get().is_empty();
    trials.tally.count_if(!has_output, "view, a damaged text before 8");
    trials.tally.count_if(is_late, "view, a damaged text before 10");
    let trial = Trial { due: answer(number, line), after: before.clone(), before };
    trial.view(trials, &text.bytes, viewer);
}
