//! One step of a record through the calls, in memory of any length.

use super::conclusion::Step;
use crate::buffers::Lent;
use crate::calls::Calls;
use crate::layout::{read, words_of};
use crate::other::Other;
use crate::pairs::seen::State;
use interpreter::generator::random::Random;
use interpreter::Label;

/// So many words or labels are lent beyond the size, at most.
const SPARE: usize = 5;

/// Lends the record and its memory, whole and at times more. Behind the size comes
/// what would be a program: this word, free to be read, or any.
pub fn lend(random: &mut Random, state: &State, beyond: u32) -> Lent {
    let mut words = state.words.clone();
    let mut labels = state.labels.clone();
    if random.chance(60) {
        let (more_words, more_labels) = (random.index(SPARE + 1), random.index(SPARE + 1));
        words.extend((0..more_words).map(|_| this_or_any(random, beyond)));
        labels.extend((0..more_labels).map(|_| this_or_any(random, Label::LOWEST.0.into()) as u8));
    }
    Lent::of(random, &words_of(&state.machine), &words, &labels)
}

/// This number, or any.
fn this_or_any(random: &mut Random, number: u32) -> u32 {
    let any = random.bits();
    random.pick(&[number, number, any])
}

/// Does the step of a state that was lent. It must not be refused, and must leave the
/// answer, the record and the bytes that the interpreter leaves.
pub fn step(calls: &dyn Calls, before: &State, mut lent: Lent) -> Result<Step, String> {
    let mut theirs = lent.clone();
    let answers = (lent.step(calls), theirs.step(&Other));
    if answers != (0, 0) {
        return Err(format!("step and the interpreter answer {answers:?}, not 0"));
    }
    if let Some(what) = lent.difference(&theirs) {
        return Err(format!("step and the interpreter leave another {what}"));
    }
    let machine = read(lent.record.get()).ok_or("step leaves no record")?;
    let words = lent.words.get()[..before.words.len()].to_vec();
    let labels = lent.labels.get()[..before.labels.len()].to_vec();
    Ok(Step { before: before.clone(), after: State { machine, words, labels } })
}
