//! Trials of the calls over a record, step, run and print and their kin: the
//! library and the interpreter get the same buffers, and must leave the same
//! answer, record and bytes.
//!
//! What answer is due is known from how the buffers were made, and from neither
//! of the two.

use crate::buffers::Lent;
use crate::calls::{number, Calls};
use crate::layout::at;
use crate::library::Library;
use crate::other::Other;
use crate::tally::Tally;
use crate::verdict::{behind_difference, close};
use interpreter::generator::random::Random;
use interpreter::Label;
use std::process::ExitCode;

/// Differences are shown up to this number.
const SHOWN: u64 = 5;

/// What answer is due.
#[derive(Clone, Copy, Debug, PartialEq, Eq)]
pub enum Due {
    /// It is not known.
    Open,
    /// A number, with any count beside it.
    Number(u64),
    /// A number and a count.
    Answer(u64),
}

impl Due {
    fn is_met(self, given: u64) -> bool {
        match self {
            Due::Open => true,
            Due::Number(due) => number(given) == due,
            Due::Answer(due) => given == due,
        }
    }
}

/// A call over a record: step, run or print, a run to a tick, or the listing for
/// a label.
#[derive(Clone, Copy, Debug, PartialEq, Eq)]
pub enum Call {
    Step,
    Run,
    RunTo(u64),
    Print,
    PrintFor(Label),
}

/// The names of the calls, in the order in which `one_of_each` has them.
pub const NAMES: [&str; 5] = ["step", "run", "run_to", "print", "print_for"];

impl Call {
    pub fn name(self) -> &'static str {
        match self {
            Call::Step => NAMES[0],
            Call::Run => NAMES[1],
            Call::RunTo(_) => NAMES[2],
            Call::Print => NAMES[3],
            Call::PrintFor(_) => NAMES[4],
        }
    }

    /// Whether it has an output.
    pub fn lists(self) -> bool {
        matches!(self, Call::Print | Call::PrintFor(_))
    }

    pub fn make(self, calls: &dyn Calls, lent: &mut Lent) -> u64 {
        match self {
            Call::Step => lent.step(calls),
            Call::Run => lent.run(calls),
            Call::RunTo(tick) => lent.run_to(calls, tick),
            Call::Print => lent.print(calls),
            Call::PrintFor(viewer) => lent.print_for(calls, viewer),
        }
    }

    /// The call that comes after it: the same, but for a run to a later tick.
    pub fn following(self) -> Call {
        match self {
            Call::RunTo(tick) => Call::RunTo(tick.saturating_add(2)),
            call => call,
        }
    }
}

/// Every call once, with a tick and a label that are of interest to the record.
/// Its words may be none.
pub fn one_of_each(random: &mut Random, record: &[u64]) -> [Call; 5] {
    let to = Call::RunTo(tick_near(random, record));
    [Call::Step, Call::Run, to, Call::Print, Call::PrintFor(viewer_near(random, record))]
}

/// A tick at or around the record's clock or its limit, or far away.
fn tick_near(random: &mut Random, record: &[u64]) -> u64 {
    let word = |place: usize| record.get(place).copied().unwrap_or(0);
    let (clock, limit) = (word(at::CLOCK), word(at::LIMIT));
    match random.below(10) {
        0 => clock.saturating_sub(1),
        1 => clock,
        2 => limit.saturating_sub(1),
        3 => limit,
        4 => limit.saturating_add(1),
        5 => random.pick(&[0, 1 << 32, u64::MAX]),
        _ => clock.saturating_add(random.between(1, 12).into()),
    }
}

/// The highest label, that of the record's pc or of a register, or any.
fn viewer_near(random: &mut Random, record: &[u64]) -> Label {
    let any = random.bits();
    let place = match random.below(4) {
        0 => return Label::HIGHEST,
        1 => at::PC_LABEL,
        2 => at::label(random.index(16)),
        _ => return Label(any as u8),
    };
    record.get(place).map_or(Label::LOWEST, |&label| Label(label as u8))
}

/// How much of words or labels is lent.
#[derive(Clone, Copy, Debug, PartialEq, Eq)]
pub enum Length {
    Just,
    Longer,
    ShortByOne,
    Empty,
}
use Length::{Empty, Just, Longer, ShortByOne};

impl Length {
    /// The number of elements for a size.
    fn of(self, random: &mut Random, size: usize) -> usize {
        match self {
            Just => size,
            Longer => size + random.between(1, 40) as usize,
            ShortByOne => size.saturating_sub(1),
            Empty => 0,
        }
    }

    fn is_short(self) -> bool {
        matches!(self, ShortByOne | Empty)
    }
}

/// What is lent as words and labels, under one name.
#[derive(Clone, Copy)]
pub struct Lending {
    pub name: &'static str,
    pub words: Length,
    pub labels: Length,
}

const fn lending(name: &'static str, words: Length, labels: Length) -> Lending {
    Lending { name, words, labels }
}

pub const LENDINGS: [Lending; 11] = [
    lending("just the memory", Just, Just),
    lending("longer words", Longer, Just),
    lending("longer labels", Just, Longer),
    lending("longer words and labels", Longer, Longer),
    lending("words short by one", ShortByOne, Just),
    lending("labels short by one", Just, ShortByOne),
    lending("words and labels short by one", ShortByOne, ShortByOne),
    lending("words short by one, longer labels", ShortByOne, Longer),
    lending("longer words, labels short by one", Longer, ShortByOne),
    lending("no words", Empty, Just),
    lending("no labels", Just, Empty),
];

impl Lending {
    /// "lent words or labels shorter than the size"
    pub fn is_short(self) -> bool {
        self.words.is_short() || self.labels.is_short()
    }

    /// Lends so much for a record of this size. What is lent beyond it is
    /// filled at random.
    pub fn apply(self, random: &mut Random, lent: &mut Lent, size: usize) {
        let (words, labels) = (self.words.of(random, size), self.labels.of(random, size));
        lent.words.lend(words, random.bits());
        lent.labels.lend(labels, random.bits() as u8);
    }
}

/// The outcome of all trials so far.
pub struct Trials {
    pub tally: Tally,
    pub passed: u64,
    pub failed: u64,
}

impl Trials {
    pub fn new(tally: Tally) -> Trials {
        Trials { tally, passed: 0, failed: 0 }
    }

    /// Prints the counts; a kind that was not met is a failure.
    pub fn finish(self) -> ExitCode {
        print!("{}", self.tally);
        let unmet = self.tally.unmet();
        println!("kinds never met: {unmet:?}");
        close(self.passed, self.failed, unmet.len())
    }

    /// Makes a call of both. Gives what the library left.
    pub fn try_call(&mut self, name: &str, call: Call, lent: &Lent, due: Due) -> Lent {
        let made = |calls: &dyn Calls, lent: &mut Lent| call.make(calls, lent);
        self.tally.count(&format!("{}, {name}", call.name()));
        self.compare(&format!("{} of {name}", call.name()), made, lent, due)
    }

    /// The two answers and all that was lent are the same, the answer is the one
    /// that is due, and a refusal has left everything.
    pub fn compare(
        &mut self,
        name: &str,
        make: impl Fn(&dyn Calls, &mut Lent) -> u64,
        before: &Lent,
        due: Due,
    ) -> Lent {
        let left = |answer: u64, after: &Lent| number(answer) == 0 || after == before;
        self.compare_leaving(name, make, before, due, left)
    }

    /// The same for a call of which something is known that it leaves.
    pub fn compare_leaving(
        &mut self,
        name: &str,
        make: impl Fn(&dyn Calls, &mut Lent) -> u64,
        before: &Lent,
        due: Due,
        left: impl Fn(u64, &Lent) -> bool,
    ) -> Lent {
        let (mut ours, mut theirs) = (before.clone(), before.clone());
        let answers = (make(&Library, &mut ours), make(&Other, &mut theirs));
        let is_due = due.is_met(answers.0) && due.is_met(answers.1);
        if answers.0 == answers.1 && ours == theirs && is_due && left(answers.0, &ours) {
            self.passed += 1;
        } else {
            self.failed += 1;
            if self.failed <= SHOWN {
                println!(
                    "{name}: {due:?} is due, the library and the interpreter answer {answers:?}"
                );
                println!("before and the library after: {:?}", before.difference(&ours));
                println!("library and interpreter after: {:?}", ours.difference(&theirs));
                println!("record before: {:?}", before.record.get());
            }
            behind_difference();
        }
        ours
    }
}
