//! `calls [SEED [COUNT]]` tries the library's calls beside the interpreter's on
//! records and memory that no load gives. COUNT is the number of records that
//! are taken and changed in every way. It prints what was met; the last line is
//! 'N passed, M failed'.

#![forbid(unsafe_code)]

use beside::bases::Base;
use beside::breaks::breaks;
use beside::buffers::Lent;
use beside::calls::{count, number, MEMORY_SHORT, NO_RECORD, OUTPUT_SHORT, SHORT_BUFFER};
use beside::edges::edges;
use beside::layout::{at, words_of};
use beside::library::Library;
use beside::loads::{try_cabinet, try_load, LOAD};
use beside::no_records::{no_records, SHORT_BUFFERS};
use beside::other::Other;
use beside::random_records::{change, gates_of, GATES};
use beside::tally::Tally;
use beside::trials::{one_of_each, Call, Due, Trials, LENDINGS, NAMES};
use interpreter::generator::random::Random;
use std::env;
use std::process::ExitCode;

/// How much output is lent, against the listing's length.
const OUTPUTS: [&str; 4] = ["just the listing", "short by one", "none", "longer"];

/// So many times each record has words changed at random.
const RANDOM: u32 = 40;

/// The calls that have an output.
const LISTING: [&str; 2] = ["print", "print_for"];

/// The length that a listing is taken to have where there is none.
const SOME_LENGTH: u64 = 18;

/// How far a run to a tick came.
const CAME: [&str; 3] = ["nowhere", "some steps", "to the end"];

/// No refusal is due for the record itself.
const FIT: u64 = 0;

/// After a call that was carried out, so many more are made.
const FURTHER: u32 = 4;

fn main() -> ExitCode {
    let numbers: Vec<u64> = env::args().skip(1).filter_map(|word| word.parse().ok()).collect();
    let (seed, bases) = match numbers[..] {
        [] => (1, 300),
        [seed] => (seed, 300),
        [seed, bases, ..] => (seed, bases),
    };
    let mut random = Random::new(seed);
    let mut trials = Trials::new(Tally::expecting(expected()));
    (0..bases).for_each(|_| try_base(&mut trials, &mut random));
    (0..10 * bases as usize).for_each(|turn| try_load(&mut trials, &mut random, turn));
    (0..4).for_each(|_| try_cabinet(&mut trials, &mut random, 60));
    trials.finish()
}

/// Every way, for every call; every length of memory and of output; and every
/// order between two refusals.
fn expected() -> Vec<String> {
    let mut names = LOAD.expected();
    let ways = breaks().map(|way| way.name).chain(no_records().map(|way| way.name));
    let ways = ways.chain(SHORT_BUFFERS.iter().map(|way| way.name));
    let records: Vec<&str> = ways.chain(edges().map(|edge| edge.name)).collect();
    for call in NAMES {
        names.extend(records.iter().map(|name| format!("{call}, {name}")));
        names.extend(LENDINGS.iter().map(|lending| format!("{call}, {}", lending.name)));
        names.extend(["7", "255"].map(|number| format!("{call}, {number} before 6")));
    }
    for call in LISTING {
        let random = |answer| format!("{call}, random words, step answers {answer}");
        names.extend(["0", "6", "7"].map(random));
        names.extend(OUTPUTS.map(|name| format!("{call}, output {name}")));
        names.extend(["6", "7", "255"].map(|number| format!("{call}, {number} before 8")));
    }
    names.extend(CAME.map(|far| format!("run_to, {far}")));
    names.extend(GATES.map(str::to_string));
    names
}

/// One record, changed in every way.
fn try_base(trials: &mut Trials, random: &mut Random) {
    let base = Base::make(random);
    try_fit(trials, random, &base);
    try_unfit(trials, random, &base);
    try_no_record(trials, random, &base);
    try_short_buffer(trials, random, &base);
    (0..RANDOM).for_each(|_| try_random_record(trials, random, &base));
}

/// The record as it is, and at each edge of fitness.
fn try_fit(trials: &mut Trials, random: &mut Random, base: &Base) {
    try_record(trials, random, "a state of a run", base, &words_of(&base.machine), FIT);
    for edge in edges() {
        let mut changed = base.clone();
        (edge.put)(&mut changed.machine, random);
        changed.fit_memory(random);
        let words = words_of(&changed.machine);
        try_record(trials, random, edge.name, &changed, &words, FIT);
    }
}

/// The record broken in each single way. Before it is broken it is fit, as a
/// trial shows, or the way would not be single.
fn try_unfit(trials: &mut Trials, random: &mut Random, base: &Base) {
    for way in breaks() {
        let mut changed = base.clone();
        (way.prepare)(&mut changed.machine);
        let prepared = words_of(&changed.machine);
        try_record(trials, random, "a prepared record", &changed, &prepared, FIT);
        (way.spoil)(&mut changed.machine);
        changed.fit_memory(random);
        let spoilt = words_of(&changed.machine);
        try_record(trials, random, way.name, &changed, &spoilt, NO_RECORD);
    }
}

/// The record's words, spoilt.
fn try_no_record(trials: &mut Trials, random: &mut Random, base: &Base) {
    for way in no_records() {
        let mut words = words_of(&base.machine).to_vec();
        (way.spoil)(&mut words, random);
        try_record(trials, random, way.name, base, &words, NO_RECORD);
    }
}

/// The record's words, too few of them.
fn try_short_buffer(trials: &mut Trials, random: &mut Random, base: &Base) {
    for way in &SHORT_BUFFERS {
        let mut words = words_of(&base.machine).to_vec();
        (way.spoil)(&mut words, random);
        try_record(trials, random, way.name, base, &words, SHORT_BUFFER);
    }
}

/// The record with words changed at random, in memory that may be too short for
/// what its size has become; a run of it can be long, and it is seldom called.
fn try_random_record(trials: &mut Trials, random: &mut Random, base: &Base) {
    let record = change(random, &words_of(&base.machine));
    let call = one_of_each(random, &record)[random.weighted(&[10, 3, 4, 10, 10])];
    let mut lent = Lent::of(random, &record, &base.words, &base.labels);
    lent.output.lend(random.pick(&[0, 100, 65_536]), 0);
    let answer = number(lent.clone().step(&Library));
    trials.tally.count(&format!("{}, random words, step answers {answer}", call.name()));
    gates_of(&record).iter().for_each(|name| trials.tally.count(name));
    trials.try_call("random words", call, &lent, Due::Open);
}

/// The calls over a record's words, in memory of some length. The refusal that is
/// due for the record comes before those for memory and output.
fn try_record(
    trials: &mut Trials,
    random: &mut Random,
    name: &str,
    base: &Base,
    record: &[u64],
    refusal: u64,
) {
    for call in one_of_each(random, record) {
        let mut lent = Lent::of(random, record, &base.words, &base.labels);
        let lending = if random.chance(50) { LENDINGS[0] } else { random.pick(&LENDINGS) };
        lending.apply(random, &mut lent, base.words.len());
        let short_output = call.lists() && lend_output(trials, random, &mut lent, call);
        let due = match (refusal, lending.is_short() && !base.words.is_empty()) {
            (FIT, true) => MEMORY_SHORT,
            (FIT, false) => OUTPUT_SHORT * u64::from(short_output),
            (refusal, _) => refusal,
        };
        let (tally, call_name) = (&mut trials.tally, call.name());
        tally.count(&format!("{call_name}, {}", lending.name));
        if refusal != FIT && lending.is_short() {
            tally.count(&format!("{call_name}, {due} before 6"));
        }
        if due != OUTPUT_SHORT && short_output {
            tally.count(&format!("{call_name}, {due} before 8"));
        }
        let after = trials.try_call(name, call, &lent, Due::Number(due));
        if due == 0 {
            count_far(trials, call, &lent, &after);
            go_on(trials, call, after);
        }
    }
}

/// Counts how far a run to a tick came.
fn count_far(trials: &mut Trials, call: Call, before: &Lent, after: &Lent) {
    let Call::RunTo(_) = call else {
        return;
    };
    let far = match (before.record == after.record, after.record.get()[at::END]) {
        (true, _) => CAME[0],
        (false, 0) => CAME[1],
        _ => CAME[2],
    };
    trials.tally.count(&format!("run_to, {far}"));
}

/// Lends output of some length; whether it is too short. Where the listing is
/// none, for the record is refused, its length is that of any.
fn lend_output(trials: &mut Trials, random: &mut Random, lent: &mut Lent, call: Call) -> bool {
    let mut listed = lent.clone();
    listed.output.lend(65_536, 0);
    let answer = call.make(&Other, &mut listed);
    let length = if number(answer) == 0 { count(answer) } else { SOME_LENGTH } as usize;
    let choice = random.index(OUTPUTS.len());
    let lend = [length, length - 1, 0, length + random.index(50) + 1][choice];
    lent.output.lend(lend, random.bits() as u8);
    trials.tally.count(&format!("{}, output {}", call.name(), OUTPUTS[choice]));
    lend < length
}

/// The same call again and again, a run to later and later ticks, from what the
/// library has left.
fn go_on(trials: &mut Trials, mut call: Call, mut lent: Lent) {
    for _ in 0..FURTHER {
        call = call.following();
        lent = trials.try_call("what a call left", call, &lent, Due::Number(0));
    }
}
