//! First records that are states of runs: those before a step that lowers a
//! label's confidentiality, and any.

use super::outsider::{member, Outsider};
use crate::pairs::seen::State;
use interpreter::draft::Draft;
use interpreter::generator::census::Census;
use interpreter::generator::compose::compose;
use interpreter::generator::labels::some_of;
use interpreter::generator::random::Random;
use interpreter::machine::end;
use interpreter::{Label, Machine};

/// No run is longer.
const LONGEST: u64 = 400;

/// So many images are tried for a run that lowers something.
const TRIES: u32 = 12;

/// The labels of a register before a step and after it, which lacks a principal
/// that the first has.
fn lowered(before: &Machine, after: &Machine) -> Option<(Label, Label)> {
    let labels = before.registers.iter().zip(&after.registers).map(|(a, b)| (a.label, b.label));
    let mut lowered = labels.filter(|(a, b)| a.confidentiality() & !b.confidentiality() != 0);
    lowered.next()
}

/// The states of a run that are not its end, and what the step from each lowers.
fn states(draft: &Draft) -> Vec<(State, Option<(Label, Label)>)> {
    let (mut machine, mut words, labels) = draft.loaded();
    let mut states = Vec::new();
    while machine.end == end::RUNNING {
        let before =
            State { machine: machine.clone(), words: words.clone(), labels: labels.clone() };
        machine.step(&mut words, &labels).expect("a loaded record stays fit");
        let lowered = lowered(&before.machine, &machine);
        states.push((before, lowered));
    }
    states
}

fn choose_image(random: &mut Random) -> Draft {
    let mut draft = compose(random, &Census::new());
    draft.limit = draft.limit.min(LONGEST);
    draft
}

/// A state of a generated image's run, and an outsider from whom its step releases
/// something, if there is such a step.
pub fn make(random: &mut Random) -> (Outsider, State) {
    let mut any = None;
    for _ in 0..TRIES {
        let states = states(&choose_image(random));
        let at = random.index(states.len());
        let releasing = states.iter().position(|(_, lowered)| lowered.is_some());
        let (state, lowered) =
            states.into_iter().nth(releasing.unwrap_or(at)).expect("one of them");
        if let Some((from, to)) = lowered {
            return (shut_out(random, from, to), state);
        }
        any = Some(state);
    }
    (Outsider::any(random), any.expect("an image was tried"))
}

/// One for whom the first label is secret and the second isn't.
fn shut_out(random: &mut Random, from: Label, to: Label) -> Outsider {
    let lacking = member(random, from.confidentiality() & !to.confidentiality());
    let set = lacking | some_of(random, from.confidentiality());
    Outsider::shut_out_from(random, set)
}
