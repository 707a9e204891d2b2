//! `releases [SEED [COUNT [library|interpreter]]]` tries on COUNT pairs of records
//! that an outsider can't steer a release, through the library's step, which is
//! compared with the interpreter's, or through the interpreter's alone. It prints
//! what was met; the last line is 'N passed, M failed'.

#![forbid(unsafe_code)]

use beside::layout::words_of;
use beside::pairs::seen::State;
use beside::releases::conclusion::{releases, steered, Step};
use beside::releases::hypotheses::broken;
use beside::releases::met::{expected, met};
use beside::releases::outsider::Outsider;
use beside::releases::stepped::{lend, step};
use beside::releases::variations::{Variation, VARIATIONS};
use beside::releases::{first, runs, second, Pair};
use beside::trial::{Trial, Words};
use std::process::ExitCode;

/// So many first records of a hundred are states of runs.
const OF_RUNS: u32 = 12;

/// What must come up besides.
const EXPECTED: [&str; 3] = ["pairs", "pairs of states of runs", "releases in states of runs"];

/// Whether more words, and more labels, are lent than the size, and the name under
/// which it counts.
const LENT: [(&str, [bool; 2]); 4] = [
    ("steps in just the memory", [false, false]),
    ("steps with longer words", [true, false]),
    ("steps with longer labels", [false, true]),
    ("steps with longer words and labels", [true, true]),
];

fn main() -> ExitCode {
    let words = Words::read();
    let mut names = EXPECTED.map(str::to_string).to_vec();
    names.extend(expected());
    names.extend(LENT.map(|(name, _)| name.to_string()));
    names.extend(VARIATIONS.iter().map(is_steered));
    let mut trial = Trial::expecting(&words, names);
    (0..words.count(20_000)).for_each(|_| try_any(&mut trial));
    trial.trials.finish()
}

fn is_steered(variation: &Variation) -> String {
    format!("releases steered once nothing is said of {}", variation.name)
}

fn try_any(trial: &mut Trial) {
    let is_of_run = trial.random.chance(OF_RUNS);
    let pair = if is_of_run { of_run(trial) } else { made(trial) };
    let outcome = check(trial, &pair, is_of_run);
    trial.judge(outcome, |what| show(&pair, what));
}

/// A pair of which the first is a state of a run.
fn of_run(trial: &mut Trial) -> Pair {
    let (outsider, one) = runs::make(&mut trial.random);
    let other = second::make(&mut trial.random, outsider, &one);
    let beyond = trial.random.bits();
    Pair { outsider, one, other, beyond }
}

/// A pair of which the first is made.
fn made(trial: &mut Trial) -> Pair {
    let outsider = Outsider::any(&mut trial.random);
    let (one, beyond) = first::make(&mut trial.random, outsider);
    let other = second::make(&mut trial.random, outsider, &one);
    Pair { outsider, one, other, beyond }
}

/// One step, in memory of some length.
fn step_of(trial: &mut Trial, state: &State, beyond: u32) -> Result<Step, String> {
    let lent = lend(&mut trial.random, state, beyond);
    let spare = [lent.words.get().len(), lent.labels.get().len()].map(|n| n > state.words.len());
    LENT.iter().for_each(|(name, kind)| trial.trials.tally.count_if(spare == *kind, name));
    step(trial.calls, state, lent)
}

/// Both steps of a pair.
fn steps(trial: &mut Trial, pair: &Pair) -> Result<(Step, Step), String> {
    let one = step_of(trial, &pair.one, pair.beyond)?;
    let other = step_of(trial, &pair.other, pair.beyond)?;
    Ok((one, other))
}

/// The claim for one pair, in both directions.
fn check(trial: &mut Trial, pair: &Pair, of_run: bool) -> Result<(), String> {
    let broken = broken(pair);
    if !broken.is_empty() {
        return Err(format!("the pair is none that the claim speaks of: {broken:?}"));
    }
    let (one, other) = steps(trial, pair)?;
    let outsider = pair.outsider;
    let steered = steered(outsider, &one, &other).or(steered(outsider, &other, &one));
    let released = !releases(outsider, &one).is_empty();
    trial.trials.tally.count("pairs");
    trial.trials.tally.count_if(of_run, "pairs of states of runs");
    trial.trials.tally.count_if(of_run && released, "releases in states of runs");
    met(pair, &one).iter().for_each(|name| trial.trials.tally.count(name));
    if released {
        vary(trial, pair)?;
    }
    steered.map_or(Ok(()), |how| Err(format!("a release is steered: {how:?}")))
}

/// Breaks one hypothesis, and counts whether the claim then fails: the check can
/// fail.
fn vary(trial: &mut Trial, pair: &Pair) -> Result<(), String> {
    let variation = &VARIATIONS[trial.random.index(VARIATIONS.len())];
    let varied = variation.make(&mut trial.random, pair);
    if broken(&varied) == [variation.breaks] {
        let (one, other) = steps(trial, &varied)?;
        let steered = steered(varied.outsider, &one, &other);
        trial.trials.tally.count_if(steered.is_some(), &is_steered(variation));
    }
    Ok(())
}

/// Prints what is wrong with a pair, and both records with their memory.
fn show(pair: &Pair, what: &str) {
    println!("{what}, for {:?}", pair.outsider);
    for state in [&pair.one, &pair.other] {
        println!("record {:?}", words_of(&state.machine));
        println!("words {:?}\nlabels {:?}", state.words, state.labels);
    }
}
