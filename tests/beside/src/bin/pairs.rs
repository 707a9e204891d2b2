//! `pairs [SEED [COUNT [library|interpreter]]]` tries noninterference on COUNT
//! pairs of machines, and on an eighth of that many that are loaded from HEX,
//! through the library's calls or the interpreter's. It prints what was met; the
//! last line is 'N passed, M failed'.

#![forbid(unsafe_code)]

use beside::pairs::check::{compare, unreached};
use beside::pairs::divisions;
use beside::pairs::from_hex::{self, HexPair};
use beside::pairs::hidden::{came, came_over_gate, Came};
use beside::pairs::image::Image;
use beside::pairs::make::Pair;
use beside::pairs::multiplies;
use beside::pairs::provisos::{both, bounds, first_broken, Bounds, NAMES};
use beside::pairs::seen::are_alike;
use beside::pairs::trace::{trace, Trace};
use beside::pairs::views::{self, listed_alike, listed_apart, room};
use beside::trial::{Trial, Words};
use interpreter::Label;
use std::process::ExitCode;

/// How far a pair came with a hidden upcall, and the name under which it counts.
const CAME: [(Came, &str); 3] = [
    (Came::Back, "pairs through a hidden upcall and back"),
    (Came::BackByDifferentRuns, "pairs through it by different hidden runs"),
    (Came::BackToWrites, "pairs through it by different hidden runs, back to visible writes"),
];

/// What must come up besides.
const EXPECTED: [&str; 11] = [
    "pairs",
    "ticks compared",
    "calls of run",
    "calls of run to a tick",
    "calls of run to a tick, with a step left out",
    "calls refused",
    "pairs through a hidden upcall over a gate call and back",
    "pairs hidden at the start",
    "pairs of which one is stopped before its end",
    "pairs of which both have ended",
    "pairs alike to the last tick though their ends differ",
];

fn main() -> ExitCode {
    let words = Words::read();
    let mut expected = EXPECTED.map(str::to_string).to_vec();
    expected.extend(views::EXPECTED.map(str::to_string));
    expected.extend(from_hex::EXPECTED.map(str::to_string));
    expected.extend(divisions::expected());
    expected.extend(multiplies::expected());
    expected.extend(CAME.map(|(_, name)| name.to_string()));
    expected.extend(NAMES.map(cut_off));
    expected.extend(NAMES.map(differs));
    expected.extend(NAMES.map(is_listed_apart));
    let mut trial = Trial::expecting(&words, expected);
    let count = words.count(20_000);
    (0..count).for_each(|_| try_any(&mut trial));
    (0..count / from_hex::EVERY).for_each(|_| try_hex(&mut trial));
    trial.trials.finish()
}

fn cut_off(proviso: &str) -> String {
    format!("pairs cut off by {proviso}")
}

fn differs(proviso: &str) -> String {
    format!("pairs that differ once nothing is said of {proviso}")
}

fn is_listed_apart(proviso: &str) -> String {
    format!("pairs listed apart once nothing is said of {proviso}")
}

fn try_any(trial: &mut Trial) {
    let pair = Pair::make(&mut trial.random);
    let images = pair.texts();
    try_pair(trial, pair, images);
}

fn try_hex(trial: &mut Trial) {
    let made = HexPair::make(&mut trial.random);
    made.kinds().iter().for_each(|kind| trial.trials.tally.count(kind));
    try_pair(trial, made.pair, made.images);
}

fn try_pair(trial: &mut Trial, pair: Pair, images: [Image; 2]) {
    let outcome = check(trial, &pair, images);
    trial.judge(outcome, |what| pair.show(what));
}

/// The claim for one pair, and what is listed of it.
fn check(trial: &mut Trial, pair: &Pair, images: [Image; 2]) -> Result<(), String> {
    let level = pair.level;
    let size = pair.one.words.len();
    let (calls, random, tally) = (trial.calls, &mut trial.random, &mut trial.trials.tally);
    let one = trace(calls, random, tally, &images[0], size)?;
    let other = trace(calls, random, tally, &images[1], size)?;
    if !are_alike(level, &one.states[0], &other.states[0]) {
        return Err("they are not loaded alike".to_string());
    }
    let bounds = both(bounds(level, &one), bounds(level, &other));
    let reached = unreached(&one, &other);
    let bound = first_broken(bounds, None).unwrap_or(reached).min(reached);
    let compared = compare(level, &one, &other, bound);
    tally.add("ticks compared", compared.ticks);
    let apart = listed_apart(calls, random, tally, pair, bound);
    count(trial, level, &one, &other, bound);
    count_provisos(trial, pair, &one, &other, bounds);
    match (compared.differs, apart) {
        (Some((tick, what)), _) => Err(format!("not alike at tick {tick}, {what}")),
        (_, Some(tick)) => Err(format!("not listed alike at tick {tick}")),
        (None, None) => Ok(()),
    }
}

/// Counts what kind of pair it is.
fn count(trial: &mut Trial, level: Label, one: &Trace, other: &Trace, bound: u64) {
    let came = came(level, one, other, bound);
    let over_gate = came_over_gate(level, one, bound) && came_over_gate(level, other, bound);
    let ended = (one.unreached().is_none(), other.unreached().is_none());
    let all = bound == unreached(one, other);
    let tally = &mut trial.trials.tally;
    tally.count("pairs");
    CAME.iter().for_each(|(far, name)| tally.count_if(came >= *far, name));
    tally.count_if(over_gate, "pairs through a hidden upcall over a gate call and back");
    tally.count_if(!one.states[0].shows_control(level), "pairs hidden at the start");
    tally.count_if(ended.0 != ended.1, "pairs of which one is stopped before its end");
    tally.count_if(ended == (true, true), "pairs of which both have ended");
    let ends = (one.last().machine.end, other.last().machine.end);
    let apart = all && ended == (true, true) && ends.0 != ends.1;
    tally.count_if(apart, "pairs alike to the last tick though their ends differ");
    divisions::met(level, one, other, bound).iter().for_each(|name| tally.count(name));
    multiplies::met(level, one, other, bound).iter().for_each(|name| tally.count(name));
}

/// Counts which provisos cut the comparison off, and whether the pair
/// differs, and is listed apart, where one of them is ignored: the check can
/// fail.
fn count_provisos(trial: &mut Trial, pair: &Pair, one: &Trace, other: &Trace, bounds: Bounds) {
    let (calls, random) = (trial.calls, &mut trial.random);
    let reached = unreached(one, other);
    for (proviso, name) in NAMES.iter().enumerate() {
        if bounds[proviso].is_none_or(|tick| tick >= reached) {
            continue;
        }
        trial.trials.tally.count(&cut_off(name));
        let bound = first_broken(bounds, Some(proviso)).unwrap_or(reached).min(reached);
        if let Some((tick, _)) = compare(pair.level, one, other, bound).differs {
            trial.trials.tally.count(&differs(name));
            let listed = listed_alike(calls, random, pair, tick, room(pair));
            trial.trials.tally.count_if(listed.is_none(), &is_listed_apart(name));
        }
    }
}
