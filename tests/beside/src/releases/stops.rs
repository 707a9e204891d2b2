//! What stops a release: the one thing that, taken away, lets it happen.

use super::conclusion::{releases, Step};
use super::outsider::Outsider;
use super::parts::{op_at, read, write, Part};
use super::Pair;
use crate::pairs::seen::State;
use interpreter::generator::census::{context, CONTEXTS};
use interpreter::instruction::Instruction;
use interpreter::machine::MAX_LIMIT;
use interpreter::{Call, Label, Machine};

/// What stops it, and how that is taken away. A part that the release would read
/// must differ between the two records: had it been read, the outsider would have
/// chosen.
struct Stop {
    name: &'static str,
    part: Option<Part>,
    mend: fn(&mut State, Instruction),
}

const fn stop(name: &'static str, part: Option<Part>, mend: fn(&mut State, Instruction)) -> Stop {
    Stop { name, part, mend }
}

/// An end tick stops it in an upcall alone.
const LATE: &str = "the end tick";

const STOPS: [Stop; 5] = [
    stop("the limit", None, |state, _| state.machine.limit = MAX_LIMIT),
    stop(LATE, None, |state, _| put_off_end(&mut state.machine)),
    stop("the label of a word that differs", Some(Part::Word), |state, i| {
        free(state, i, Part::Word);
    }),
    stop("the label of a source that differs", Some(Part::Source), |state, i| {
        free(state, i, Part::Source)
    }),
    stop("the unsound label of a location that differs", Some(Part::Location), make_sound),
];

/// More ticks than an op 16 takes.
const LATER: u64 = 9;

fn put_off_end(machine: &mut Machine) {
    for call in [&mut machine.first, &mut machine.second] {
        if let Call::Upcall(_, end_tick) = call {
            *end_tick += LATER;
        }
    }
}

/// Gives a part the label that flows to every other.
fn free(state: &mut State, i: Instruction, part: Part) {
    let mut new = read(state, i, part);
    new.label = Label::LOWEST;
    write(state, i, part, new);
}

fn make_sound(state: &mut State, i: Instruction) {
    let mut new = read(state, i, Part::Location);
    let (integrity, confidentiality) = (new.label.integrity(), new.label.confidentiality());
    new.label = Label::new(integrity | confidentiality, confidentiality);
    write(state, i, Part::Location, new);
}

/// The name under which a stop counts, with these calls open.
fn stopped_by(stop: &Stop, calls: &str) -> String {
    format!("releases stopped alone by {}, with {calls} open", stop.name)
}

/// All that must come up.
pub fn expected() -> Vec<String> {
    let all = STOPS.iter().flat_map(|stop| CONTEXTS.map(|calls| (stop, calls)));
    let can_be = all.filter(|(stop, calls)| stop.name != LATE || calls.contains("upcall"));
    can_be.map(|(stop, calls)| stopped_by(stop, calls)).collect()
}

/// What stops a pair's first step from a release. Where two things do, neither is
/// it alone.
pub fn met(pair: &Pair) -> Vec<String> {
    let Some(i) = op_at(&pair.one) else {
        return Vec::new();
    };
    let differs = |part: Part| read(&pair.one, i, part) != read(&pair.other, i, part);
    let met = STOPS.iter().filter(|stop| {
        stop.part.is_none_or(differs) && releases_without(stop, pair.outsider, &pair.one, i)
    });
    let calls = CONTEXTS[context(&pair.one.machine)];
    met.map(|stop| stopped_by(stop, calls)).collect()
}

/// Whether the interpreter's step releases something once the stop is away.
fn releases_without(stop: &Stop, outsider: Outsider, state: &State, i: Instruction) -> bool {
    let mut before = state.clone();
    (stop.mend)(&mut before, i);
    let mut after = before.clone();
    let State { machine, words, labels } = &mut after;
    let done = machine.step(words, labels).is_ok();
    done && !releases(outsider, &Step { before, after }).is_empty()
}
