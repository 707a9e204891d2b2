//! Trials of runs to one tick after another, from a loaded record on, with a
//! listing for a label after each: record and memory are those of the state that
//! has been reached.

use crate::buffers::Lent;
use crate::calls::answer;
use crate::fired::{choose_viewer, listing_for, Fired};
use crate::layout::{words_of, SPAN};
use crate::pairs::seen::State;
use crate::trials::{Call, Trials};
use crate::views::{with_listing, with_memory, Trial};
use interpreter::generator::random::Random;

/// So many runs follow each other.
const LENGTH: usize = 6;

/// What must come up.
pub const EXPECTED: [&str; 4] = [
    "chain, a run to a tick",
    "chain, a run to a tick that is past",
    "chain, a run to a tick above the limit",
    "chain, a listing for a label",
];

/// Ticks of the image, rising, but now and then for one.
fn choose_ticks(random: &mut Random, fired: &Fired) -> Vec<u64> {
    let ticks = fired.ticks(random);
    let mut chosen: Vec<u64> = (0..LENGTH).map(|_| random.pick(&ticks)).collect();
    chosen.sort_unstable();
    if random.chance(50) {
        chosen.insert(random.index(LENGTH), random.pick(&ticks));
    }
    chosen
}

/// Runs from tick to tick, then to the end. A run to a tick that is past does
/// nothing; one above the limit goes to the end.
pub fn try_chain(trials: &mut Trials, random: &mut Random, fired: &Fired) {
    let State { machine, words, labels } = fired.loaded();
    let mut lent = Lent::of(random, &words_of(machine), words, labels);
    let mut reached = 0;
    for tick in choose_ticks(random, fired) {
        let tally = &mut trials.tally;
        tally.count("chain, a run to a tick");
        tally.count_if(tick < reached, "chain, a run to a tick that is past");
        tally.count_if(tick > fired.limit, "chain, a run to a tick above the limit");
        reached = reached.max(tick);
        lent = try_run(trials, lent, Call::RunTo(tick), fired.at(reached));
        try_listing(trials, random, &lent, fired.at(reached));
    }
    try_run(trials, lent, Call::Run, fired.last());
}

/// A run of some kind. Gives what it must leave, the record and memory of this
/// state.
fn try_run(trials: &mut Trials, before: Lent, call: Call, state: &State) -> Lent {
    let mut after = with_memory(before.clone(), state);
    after.record.get_mut()[..SPAN].copy_from_slice(&words_of(&state.machine));
    let trial = Trial { before, due: answer(0, 0), after };
    let name = format!("{call:?} in a chain");
    trial.make(trials, &name, |calls, lent| call.make(calls, lent));
    trial.after
}

/// The listing for a label, in output of just its length.
fn try_listing(trials: &mut Trials, random: &mut Random, lent: &Lent, state: &State) {
    let viewer = choose_viewer(random, state);
    let listing = listing_for(state, viewer);
    let mut before = lent.clone();
    before.output.lend(listing.len(), 0);
    let after = with_listing(before.clone(), &listing);
    let trial = Trial { before, due: answer(0, listing.len() as u64), after };
    let call = Call::PrintFor(viewer);
    let name = format!("{call:?} in a chain");
    trial.make(trials, &name, |calls, lent| call.make(calls, lent));
    trials.tally.count("chain, a listing for a label");
}
