//! What a pair's steps came by: releases of every kind, what stops one, and what else
//! is done with a secret location.

use super::conclusion::{releases, Step};
use super::parts::op_at;
use super::{stops, Pair};
use interpreter::generator::census::{context, CONTEXTS};
use interpreter::instruction::{op, Instruction};
use interpreter::machine::ZERO_REGISTER;

/// What is asked of a pair whose steps release something.
type Kind = (&'static str, fn(&Pair, &Step) -> bool);

const RELEASES: [Kind; 13] = [
    ("releases", |_, _| true),
    ("releases that finish at the limit", |_, step| {
        step.after.machine.clock == step.before.machine.limit
    }),
    ("releases that finish at the end tick", |_, step| {
        let upcall = step.before.machine.open_upcall();
        upcall.is_some_and(|(_, end_tick)| step.after.machine.clock == end_tick)
    }),
    ("releases under a timing label that isn't trusted", |pair, step| {
        !pair.outsider.is_trusted_label(step.before.machine.pair.timing)
    }),
    ("releases beside something that differs", |pair, _| differing(pair) > 0),
    ("releases beside many that differ", |pair, _| differing(pair) >= MANY),
    ("releases where all registers that aren't trusted differ", all_registers_differ),
    ("releases where what stands behind the gates differs", |pair, _| {
        pair.one.machine.gates != pair.other.machine.gates
    }),
    ("releases to the label that register 0 holds", |_, step| {
        op_at(&step.before).is_some_and(|i| i.b() == ZERO_REGISTER)
    }),
    ("releases with s of one principal", |pair, _| principals(pair.outsider.shut_out_from) == 1),
    ("releases with s of several", |pair, _| principals(pair.outsider.shut_out_from) > 1),
    ("releases with an empty j", |pair, _| pair.outsider.trusted_with == 0),
    ("releases with j and s that share principals", |pair, _| {
        pair.outsider.trusted_with & pair.outsider.shut_out_from != 0
    }),
];

/// So many locations are many.
const MANY: usize = 10;

fn principals(set: u8) -> u32 {
    set.count_ones()
}

/// The number of locations that differ.
fn differing(pair: &Pair) -> usize {
    pair.one.locations().zip(pair.other.locations()).filter(|(a, b)| a != b).count()
}

/// Some of them aren't trusted, and none of these is the same.
fn all_registers_differ(pair: &Pair, _: &Step) -> bool {
    let both = pair.one.machine.registers.iter().zip(&pair.other.machine.registers);
    let mut untrusted =
        both.filter(|(one, _)| !pair.outsider.is_trusted_label(one.label)).peekable();
    untrusted.peek().is_some() && untrusted.all(|(one, other)| one != other)
}

/// Other steps, by what they do with a secret location.
const RAISED: &str = "raises of a secret location";
const KEPT: &str = "relabellings after which a secret location is still secret";
const UNDER_UNTRUSTED: &str =
    "relabellings of a secret location tried under a pc label that isn't trusted";
const OUTSIDE: &str = "relabellings behind the memory, with the pc there";

/// All that must come up.
pub fn expected() -> Vec<String> {
    let mut names: Vec<String> = RELEASES.iter().map(|(name, _)| name.to_string()).collect();
    names.extend((0..CONTEXTS.len()).map(released_with));
    names.extend(stops::expected());
    names.extend([RAISED, KEPT, UNDER_UNTRUSTED, OUTSIDE].map(str::to_string));
    names
}

fn released_with(context: usize) -> String {
    format!("releases with {} open", CONTEXTS[context])
}

/// What came up in the first step of a pair.
pub fn met(pair: &Pair, step: &Step) -> Vec<String> {
    if releases(pair.outsider, step).is_empty() {
        let mut names = stops::met(pair);
        names.extend(done(pair, step).map(str::to_string));
        return names;
    }
    let kinds = RELEASES.iter().filter(|(_, is_met)| is_met(pair, step));
    let mut names: Vec<String> = kinds.map(|(name, _)| name.to_string()).collect();
    names.push(released_with(context(&step.before.machine)));
    names
}

/// What the step did, or tried, with a secret location.
fn done(pair: &Pair, step: &Step) -> impl Iterator<Item = &'static str> {
    let machine = &step.before.machine;
    let is_op = |i: Instruction, number: u8| i.op() == number;
    let outside = op_at(&step.before).is_none() && is_op(Instruction(pair.beyond), op::RELABEL);
    let i = op_at(&step.before).unwrap_or(Instruction(0));
    let (before, after) = (machine.registers[i.a()], step.after.machine.registers[i.a()]);
    let is_secret = pair.outsider.is_secret_label(before.label);
    let relabels = is_secret && is_op(i, op::RELABEL);
    let changed = before.label != after.label;
    let kinds = [
        (RAISED, is_secret && is_op(i, op::RAISE) && changed),
        (KEPT, relabels && changed),
        (UNDER_UNTRUSTED, relabels && !pair.outsider.is_trusted_label(machine.pair.pc)),
        (OUTSIDE, outside),
    ];
    kinds.into_iter().filter(|(_, is_met)| *is_met).map(|(name, _)| name)
}
