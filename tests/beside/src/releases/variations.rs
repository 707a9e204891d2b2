//! Pairs that break one hypothesis and no other, made from pairs that release. They
//! show what each hypothesis is for: without it the claim is false.
//!
//! Equal gates and an equal error place are not among them. A release reads
//! neither, so that the claim of one step would hold without.

use super::hypotheses::Hypothesis;
use super::outsider::Outsider;
use super::parts::{op_at, read, write, Part};
use super::{first, second, Pair};
use interpreter::generator::labels::{sound_above, valid_pair};
use interpreter::generator::random::Random;
use interpreter::machine::end;
use interpreter::{Call, Label, Machine, Pair as LabelPair, Register};

/// How the second record is changed: as a whole, or in a part that the release
/// reads.
enum Change {
    Pair(fn(&mut Random, &mut Pair)),
    Part(Part, fn(&mut Random, Outsider, &mut Register)),
}

/// A change of a pair, and what it breaks.
pub struct Variation {
    pub name: &'static str,
    pub breaks: Hypothesis,
    change: Change,
}

const fn whole(
    name: &'static str,
    breaks: Hypothesis,
    change: fn(&mut Random, &mut Pair),
) -> Variation {
    Variation { name, breaks, change: Change::Pair(change) }
}

const fn value(name: &'static str, part: Part) -> Variation {
    let change = Change::Part(part, |random, _, read| read.value ^= 1 << random.below(u32::BITS));
    Variation { name, breaks: Hypothesis::TrustedValues, change }
}

const fn label(name: &'static str, part: Part) -> Variation {
    Variation { name, breaks: Hypothesis::TrustedLabels, change: Change::Part(part, relabel) }
}

const fn trust(name: &'static str, part: Part) -> Variation {
    let change = Change::Part(part, |random, outsider, read| {
        read.label = outsider.untrusted_label(random);
    });
    Variation { name, breaks: Hypothesis::WhatIsTrusted, change }
}

pub const VARIATIONS: [Variation; 18] = [
    whole("s that isn't within j", Hypothesis::ShutOut, |random, pair| {
        pair.outsider.trusted_with |= pair.outsider.shut_out_from;
        pair.other = second::make(random, pair.outsider, &pair.one);
    }),
    whole("running", Hypothesis::Running, |_, pair| pair.other.machine.end = end::HALTED),
    whole("the size", Hypothesis::Size, |_, pair| cut_before_pc(pair)),
    whole("the limit", Hypothesis::Limit, |_, pair| {
        pair.other.machine.limit = pair.one.machine.clock + 1;
    }),
    whole("the clock", Hypothesis::Clock, |_, pair| put_clock_late(&mut pair.other.machine)),
    whole("the end tick", Hypothesis::Calls, |_, pair| put_end_tick(&mut pair.other.machine)),
    whole("an open upcall", Hypothesis::Calls, |random, pair| {
        open_upcall(random, &mut pair.other.machine);
    }),
    whole("the pc", Hypothesis::Pc, |random, pair| {
        pair.other.machine.pc = random.below(pair.one.machine.size + 1);
    }),
    whole("the pair", Hypothesis::LabelPair, |random, pair| {
        pair.other.machine.pair = another_pair(random, pair.one.machine.pair);
    }),
    value("the word's value", Part::Word),
    value("the source's value", Part::Source),
    value("the location's value", Part::Location),
    label("the word's label", Part::Word),
    label("the source's label", Part::Source),
    label("the location's label", Part::Location),
    trust("trust in the word", Part::Word),
    trust("trust in the source", Part::Source),
    trust("trust in the location", Part::Location),
];

/// Another label that is trusted too, where the first try finds one.
fn relabel(random: &mut Random, outsider: Outsider, read: &mut Register) {
    let label = Label(random.bits() as u8);
    if outsider.is_trusted_label(label) {
        read.label = label;
    }
}

/// Memory ends before the pc, where that isn't 0.
fn cut_before_pc(pair: &mut Pair) {
    let size = pair.one.machine.pc;
    pair.other.machine.size = size;
    pair.other.words.truncate(size as usize);
    pair.other.labels.truncate(size as usize);
}

/// The last clock of a well-formed record: at the limit, or at the end tick.
fn put_clock_late(machine: &mut Machine) {
    let end_tick = machine.open_upcall().map_or(machine.limit, |(_, end_tick)| end_tick);
    machine.clock = machine.limit.min(end_tick);
}

/// An end tick that an op of 2 ticks doesn't keep.
fn put_end_tick(machine: &mut Machine) {
    let late = machine.clock + 1;
    for call in [&mut machine.first, &mut machine.second] {
        if let Call::Upcall(_, end_tick) = call {
            *end_tick = late;
        }
    }
}

/// The same in an upcall that the first record doesn't have.
fn open_upcall(random: &mut Random, machine: &mut Machine) {
    if machine.open_upcall().is_some() {
        return;
    }
    let upcall = first::upcall(random, machine);
    match machine.first {
        Call::Empty => machine.first = upcall,
        _ => machine.second = upcall,
    }
    put_end_tick(machine);
}

/// A valid pair above this one, or any.
fn another_pair(random: &mut Random, pair: LabelPair) -> LabelPair {
    let pc = sound_above(random, pair.pc);
    let above = LabelPair { pc, timing: sound_above(random, pc) };
    let any = valid_pair(random);
    random.pick(&[above, any])
}

impl Variation {
    /// The pair with the change. It may be none that breaks the hypothesis alone.
    pub fn make(&self, random: &mut Random, pair: &Pair) -> Pair {
        let mut changed = pair.clone();
        match (&self.change, op_at(&pair.one)) {
            (Change::Pair(change), _) => change(random, &mut changed),
            (Change::Part(part, change), Some(i)) => {
                let mut new = read(&pair.one, i, *part);
                change(random, pair.outsider, &mut new);
                write(&mut changed.other, i, *part, new);
            }
            (Change::Part(..), None) => {}
        }
        changed
    }
}
