//! The census: in how many images each kind of thing was met.
//!
//! Images are counted, not steps: a loop would count one thing many times.

use super::damage::PLANS;
use super::division;
use super::faults::FAULTS;
use super::multiply::Multiplies;
use super::on_zero::writes;
use crate::instruction::op;
use crate::machine::{Call, Machine};
use std::collections::BTreeMap;
use std::fmt;

/// The four shapes of open calls.
pub const CONTEXTS: [&str; 4] =
    ["no call", "a gate call", "an upcall", "an upcall over a gate call"];

/// Everything besides the ops that a run can meet. All are listed, so that one
/// that is never met shows up with the count 0.
const NOTES: [&str; 90] = [
    "end 1 with no call open",
    "end 1 with a gate call open",
    "end 2 with no call open",
    "end 2 with a gate call open",
    "end 2 with an upcall open",
    "end 2 with an upcall over a gate call open",
    "end 3 with no call open",
    "end 3 with a gate call open",
    "end 3, why 1",
    "end 3, why 2",
    "end 3, why 3",
    "refusal 1",
    "refusal 2",
    "refusal 3",
    "refusal 4",
    "refusal 5",
    "refusal 9",
    "refusal 13",
    "fetch fails with no call open, why 1",
    "fetch fails with no call open, why 2",
    "fetch fails with no call open, why 3",
    "fetch fails with a gate call open, why 1",
    "fetch fails with a gate call open, why 2",
    "fetch fails with a gate call open, why 3",
    "an upcall closed, cause 1",
    "an upcall closed, cause 2",
    "an upcall closed, cause 3",
    "an upcall over a gate call closed, cause 1",
    "an upcall over a gate call closed, cause 2",
    "an upcall over a gate call closed, cause 3",
    "cause 3 by a failed fetch, why 1",
    "cause 3 by a failed fetch, why 2",
    "cause 3 by a failed fetch, why 3",
    "cause 3 by a failed fetch at the error pc",
    "cause 3 by op 11",
    "cause 3 by op 12",
    "cause 3 by op 13",
    "cause 3 by op 22",
    "cause 3 by an op that is late too",
    "cause written to register 15",
    "cause not written to register 15",
    "limit bars a close, cause 1",
    "limit bars a close, cause 2",
    "limit bars a close, cause 3",
    "limit bars an op with no call open",
    "limit bars an op with a gate call open",
    "limit bars an op with an upcall open",
    "limit bars an op with an upcall over a gate call open",
    "spent at clock = limit with no call open",
    "spent at clock = limit with a gate call open",
    "spent at clock = limit with an upcall open",
    "spent at clock = limit with an upcall over a gate call open",
    "spent at clock = limit where a fetch would stall",
    "op finishes at the limit",
    "op would finish one tick beyond the limit",
    "halt finishes at the limit",
    "stall one tick before the limit",
    "close finishes at the limit",
    "close is one tick beyond the limit",
    "late op beyond the limit closes within it",
    "upcall with no time (Ra = 0)",
    "upcall whose end tick is beyond 2^32",
    "op finishes at the end tick",
    "op would finish one tick past the end tick",
    "op 19 at clock = end tick",
    "late op whose check would fail too",
    "op from a word that the upcall's caller can't fetch",
    "op from a word that the program rewrote",
    "ops 15 to 18 with a value above 255",
    "gate call fails by one test alone: a call is open",
    "gate call fails by one test alone: no such gate",
    "gate call fails by one test alone: the gate's timing label",
    "gate call fails by one test alone: both labels of the gate",
    "gate call fails by one test alone: Lb",
    "gate return fails: labels, with a gate call on top",
    "ops 2 to 8 with register 0",
    "op 9 with the address in register 0",
    "op 10 stores register 0",
    "op 10 with the address in register 0",
    "op 11 with register 0",
    "op 12 with register 0",
    "op 13 with register 0",
    "ops 15 and 16 with the label in register 0",
    "op 17 with register 0 for p",
    "op 17 with register 0 for t",
    "op 18 with register 0 for its ticks",
    "op 18 with register 0 for p",
    "op 18 with register 0 for t",
    "op 18 with register 0 for its return place",
    "op 20 with register 0 for gate 0",
];

/// All notes, in the order in which they are shown.
fn notes() -> impl Iterator<Item = &'static str> {
    NOTES.into_iter().chain(division::NOTES)
}

/// Counts of everything met so far.
pub struct Census {
    /// By context, op, and 0 for a failed or 1 for a passed check.
    ops: [[[u64; 2]; op::TABLE]; 4],
    /// By op: not carried out in an upcall because it is late, and not carried
    /// out because of the limit.
    undone: [[u64; 2]; op::TABLE],
    /// By op: what one met that would write or relabel register 0.
    on_zero: [[u64; ON_ZERO.len()]; op::TABLE],
    pub multiplies: Multiplies,
    notes: BTreeMap<&'static str, u64>,
    /// What no run should meet.
    strange: BTreeMap<String, u64>,
    /// By plan and by fault, what was done to damaged images.
    damages: BTreeMap<String, u64>,
}

/// Why an op that was fetched is not carried out, and why it doesn't close an
/// upcall by itself either.
#[derive(Clone, Copy, Debug, PartialEq, Eq)]
pub enum Undone {
    Late,
    BeyondLimit,
}

/// What an op can meet that would write or relabel register 0.
#[derive(Clone, Copy, Debug, PartialEq, Eq)]
pub enum OnZero {
    /// It passes by, with calls of this context open.
    PassedBy(usize),
    /// It is not carried out.
    Undone(Undone),
    /// It passes by, and any other register would have been changed.
    StoppedAlone,
}

/// All of them, in the order in which they are shown.
const ON_ZERO: [OnZero; 7] = [
    OnZero::PassedBy(0),
    OnZero::PassedBy(1),
    OnZero::PassedBy(2),
    OnZero::PassedBy(3),
    OnZero::Undone(Undone::Late),
    OnZero::Undone(Undone::BeyondLimit),
    OnZero::StoppedAlone,
];

impl OnZero {
    /// Its index in the list.
    fn index(self) -> usize {
        match self {
            OnZero::PassedBy(context) => context,
            OnZero::Undone(undone) => CONTEXTS.len() + undone as usize,
            OnZero::StoppedAlone => ON_ZERO.len() - 1,
        }
    }

    /// Whether an op can meet it.
    fn is_possible(self, number: u8) -> bool {
        match self {
            OnZero::Undone(undone) => writes(number) && can_be_undone(number, undone),
            _ => writes(number),
        }
    }
}

/// Which of the four shapes the open calls have.
pub fn context(machine: &Machine) -> usize {
    match (machine.first, machine.second) {
        (Call::Empty, _) => 0,
        (Call::Gate(_), Call::Empty) => 1,
        (Call::Upcall(..), _) => 2,
        _ => 3,
    }
}

/// Some ops can't pass, or can't fail, in some contexts.
pub fn is_possible(context: usize, number: u8, passed: bool) -> bool {
    let in_upcall = context >= 2;
    match (number, passed) {
        (op::UPCALL, true) => !in_upcall,
        (op::END_UPCALL, passed) => in_upcall == passed,
        (op::GATE_CALL, true) => context == 0,
        (op::GATE_RETURN, true) => context == 1,
        (op::HALT, passed) => in_upcall != passed,
        _ => true,
    }
}

/// Ops 19 and 22 close an upcall, late or not. An op of one tick is beyond the
/// limit only at clock = limit, where nothing is fetched.
fn can_be_undone(number: u8, undone: Undone) -> bool {
    match undone {
        Undone::Late => number != op::END_UPCALL && number != op::HALT,
        Undone::BeyondLimit => matches!(
            number,
            op::MULTIPLY..=op::STORE
                | op::RAISE..=op::UPCALL
                | op::GATE_CALL..=op::GATE_RETURN
                | op::DIVIDE..=op::REMAINDER
        ),
    }
}

impl Default for Census {
    fn default() -> Census {
        Census::new()
    }
}

impl Census {
    pub fn new() -> Census {
        let notes = notes().map(|name| (name, 0)).collect();
        let plans = PLANS.iter().map(|plan| format!("damage {plan:?}"));
        let faults = FAULTS.iter().map(|fault| fault.to_string());
        let damages = plans.chain(faults).map(|name| (name, 0)).collect();
        let (ops, undone) = ([[[0; 2]; op::TABLE]; 4], [[0; 2]; op::TABLE]);
        let on_zero = [[0; ON_ZERO.len()]; op::TABLE];
        let (multiplies, strange) = (Multiplies::new(), BTreeMap::new());
        Census { ops, undone, on_zero, multiplies, notes, strange, damages }
    }

    /// Adds what one image has met: each kind once, however often it came up.
    pub fn add_image(&mut self, seen: &Census) {
        let sums = self.ops.iter_mut().flatten().flatten();
        for (sum, count) in sums.zip(seen.ops.iter().flatten().flatten()) {
            *sum += (*count).min(1);
        }
        let sums = self.undone.iter_mut().flatten();
        sums.zip(seen.undone.iter().flatten()).for_each(|(sum, count)| *sum += (*count).min(1));
        let sums = self.on_zero.iter_mut().flatten();
        sums.zip(seen.on_zero.iter().flatten()).for_each(|(sum, count)| *sum += (*count).min(1));
        self.multiplies.add_image(&seen.multiplies);
        let sums = self.notes.values_mut();
        sums.zip(seen.notes.values()).for_each(|(sum, count)| *sum += (*count).min(1));
        seen.strange.keys().for_each(|name| *self.strange.entry(name.clone()).or_insert(0) += 1);
    }

    /// In how many images an op has passed or failed in a context.
    pub fn op_count(&self, context: usize, number: u8, passed: bool) -> u64 {
        self.ops[context][usize::from(number)][usize::from(passed)]
    }

    pub fn count_op(&mut self, context: usize, number: u8, passed: bool) {
        self.ops[context][usize::from(number)][usize::from(passed)] += 1;
    }

    pub fn count_undone(&mut self, number: u8, undone: Undone) {
        self.undone[usize::from(number)][undone as usize] += 1;
    }

    /// In how many images an op on register 0 has met this.
    pub fn on_zero_count(&self, number: u8, met: OnZero) -> u64 {
        self.on_zero[usize::from(number)][met.index()]
    }

    pub fn count_on_zero(&mut self, number: u8, met: OnZero) {
        self.on_zero[usize::from(number)][met.index()] += 1;
    }

    /// Counts a note. One that is not in the list is of something that can't be.
    pub fn note(&mut self, name: &str) {
        match self.notes.get_mut(name) {
            Some(count) => *count += 1,
            None => *self.strange.entry(name.to_string()).or_insert(0) += 1,
        }
    }

    pub fn note_if(&mut self, condition: bool, name: &str) {
        if condition {
            self.note(name);
        }
    }

    /// Counts what was done to a damaged image.
    pub fn count_damage(&mut self, names: &[String]) {
        for name in names {
            *self.damages.get_mut(name).expect("every plan and fault is in a list") += 1;
        }
    }

    /// What was met and can't be.
    pub fn strange(&self) -> Vec<&str> {
        self.strange.keys().map(String::as_str).collect()
    }

    /// The kinds that no image has met yet.
    pub fn unmet(&self) -> Vec<String> {
        let notes = self.notes.iter().filter(|(_, &count)| count == 0);
        let damages = self.damages.iter().filter(|(_, &count)| count == 0);
        let mut unmet: Vec<String> = notes.map(|(name, _)| name.to_string()).collect();
        unmet.extend(damages.map(|(name, _)| name.clone()));
        unmet.extend(op::KNOWN.flat_map(|number| self.unmet_of_op(number)));
        unmet.extend(op::KNOWN.flat_map(|number| self.unmet_on_zero(number)));
        unmet.extend(self.multiplies.unmet());
        unmet
    }

    /// What an op on register 0 can meet and has not met yet.
    fn unmet_on_zero(&self, number: u8) -> Vec<String> {
        let possible = ON_ZERO.into_iter().filter(|met| met.is_possible(number));
        let missing = possible.filter(|&met| self.on_zero_count(number, met) == 0);
        missing.map(|met| format!("op {number} on register 0: {met:?}")).collect()
    }

    /// The outcomes of an op that no image has met yet.
    fn unmet_of_op(&self, number: u8) -> Vec<String> {
        let outcomes = (0..CONTEXTS.len()).flat_map(|context| [(context, false), (context, true)]);
        let possible = outcomes.filter(|&(context, passed)| is_possible(context, number, passed));
        let missing =
            possible.filter(|&(context, passed)| self.op_count(context, number, passed) == 0);
        let named = missing.map(|(context, passed)| {
            format!("op {number} with {}, passed: {passed}", CONTEXTS[context])
        });
        let undone = [Undone::Late, Undone::BeyondLimit].into_iter();
        let undone = undone.filter(|&undone| can_be_undone(number, undone));
        let undone =
            undone.filter(|&undone| self.undone[usize::from(number)][undone as usize] == 0);
        named.chain(undone.map(|undone| format!("op {number} {undone:?}"))).collect()
    }

    /// A count, or a dash for what can't be.
    fn shown(count: u64, is_possible: bool) -> String {
        if is_possible {
            count.to_string()
        } else {
            "-".to_string()
        }
    }

    /// An op's row: passed and failed in each context, late, beyond the limit.
    fn row(&self, number: u8) -> String {
        let mut row = format!("op {number:>2}:");
        for context in 0..CONTEXTS.len() {
            let [passed, failed] = [true, false].map(|passed| {
                let count = self.op_count(context, number, passed);
                Census::shown(count, is_possible(context, number, passed))
            });
            row += &format!(" {passed:>6}/{failed:>6}");
        }
        let [late, beyond] = [Undone::Late, Undone::BeyondLimit].map(|undone| {
            let count = self.undone[usize::from(number)][undone as usize];
            Census::shown(count, can_be_undone(number, undone))
        });
        row + &format!(" {late:>6} {beyond:>6}\n")
    }

    /// The row of an op that would write or relabel register 0.
    fn row_on_zero(&self, number: u8) -> String {
        let shown = ON_ZERO.map(|met| {
            let count = self.on_zero_count(number, met);
            format!(" {:>6}", Census::shown(count, met.is_possible(number)))
        });
        format!("op {number:>2} on register 0:{}\n", shown.concat())
    }
}

impl fmt::Display for Census {
    fn fmt(&self, out: &mut fmt::Formatter) -> fmt::Result {
        writeln!(out, "images in which an op passed/failed with {},", CONTEXTS.join(", with "))?;
        writeln!(out, "was late in an upcall, and was barred by the limit")?;
        let rows: String = op::KNOWN.map(|number| self.row(number)).collect();
        write!(out, "{rows}")?;
        writeln!(out, "images in which an op passed by at register 0 with the same calls open,")?;
        writeln!(out, "was late, was barred, and was stopped by nothing but register 0")?;
        let writers = op::KNOWN.filter(|&number| writes(number));
        let rows: String = writers.map(|number| self.row_on_zero(number)).collect();
        write!(out, "{rows}{}", self.multiplies)?;
        let notes: String = notes().map(|name| format!("{name}: {}\n", self.notes[name])).collect();
        let damages: String =
            self.damages.iter().map(|(name, count)| format!("{name}: {count}\n")).collect();
        writeln!(out, "{notes}{damages}kinds met that can't be: {:?}", self.strange())?;
        writeln!(out, "kinds never met: {:?}", self.unmet())
    }
}
