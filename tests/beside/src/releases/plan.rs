//! What a step is to come by: an op that relabels, and the labels that its checks
//! look at, chosen so that it releases, or that one check alone stops it.

use super::outsider::{member, Outsider};
use interpreter::generator::labels::{below, location_label, some_of, sound_above, valid_pair};
use interpreter::generator::random::Random;
use interpreter::instruction::op;
use interpreter::label::EVERYONE;
use interpreter::{Label, Pair};

/// The labels of an op 15 or 16.
#[derive(Clone, Copy, Debug)]
pub struct Plan {
    pub op: u8,
    pub pair: Pair,
    /// La.
    pub location: Label,
    /// What Rb holds. It may be too large for a label.
    pub new: u32,
    /// Lb.
    pub source: Label,
    /// That of the op's own word.
    pub word: Label,
}

/// A change of a plan that would release.
type Spoil = fn(&mut Random, Outsider, &mut Plan);

/// The changes, each with how often it is made, of a hundred.
const SPOILS: [(u32, Spoil); 10] = [
    (48, |_, _, _| {}),
    (8, |random, outsider, plan| plan.source = outsider.untrusted_label(random)),
    (8, |random, outsider, plan| plan.word = outsider.untrusted_label(random)),
    (10, make_location_untrusted),
    (8, make_pc_label_untrusted),
    (4, make_raise),
    (2, |_, _, plan| plan.op = op::RAISE),
    (2, |random, _, plan| plan.new += (1 + random.below(99)) << u8::BITS),
    (4, |random, _, plan| plan.new = above_within(random, plan).0.into()),
    (6, |random, _, plan| take_any(random, plan)),
];

impl Plan {
    pub fn make(random: &mut Random, outsider: Outsider) -> Plan {
        let mut plan = releasing(random, outsider);
        let (_, spoil) = SPOILS[random.weighted(&SPOILS.map(|(weight, _)| weight))];
        spoil(random, outsider, &mut plan);
        plan
    }
}

/// "p flows to the meet of l and l', l is sound, l' flows to the reflection of p":
/// from a label that is secret to one that lacks a principal of s.
fn releasing(random: &mut Random, outsider: Outsider) -> Plan {
    let lacking = member(random, outsider.shut_out_from);
    let location = secret_and_sound(random, outsider);
    let pc = Label::new(
        location.integrity() | some_of(random, EVERYONE),
        some_of(random, location.confidentiality()) & !lacking,
    );
    let new = Label::new(
        pc.confidentiality() | some_of(random, pc.integrity()),
        (pc.confidentiality() | some_of(random, pc.integrity())) & !lacking,
    );
    Plan {
        op: op::RELABEL,
        pair: Pair { pc, timing: timing_above(random, outsider, pc) },
        location,
        new: new.0.into(),
        source: below(random, pc),
        word: below(random, pc),
    }
}

fn secret_and_sound(random: &mut Random, outsider: Outsider) -> Label {
    let confidentiality = outsider.shut_out_from | some_of(random, EVERYONE);
    Label::new(confidentiality | some_of(random, EVERYONE), confidentiality)
}

/// A timing label for a pc label, at times one that isn't trusted where there is
/// one: nothing is asked of it but that the pair is valid.
fn timing_above(random: &mut Random, outsider: Outsider, pc: Label) -> Label {
    let (i, c) = (pc.integrity(), pc.confidentiality());
    let untrusted = Label::new(c | i & outsider.trusted_with, c);
    if random.chance(40) && !outsider.is_trusted_label(untrusted) {
        return untrusted;
    }
    sound_above(random, pc)
}

/// A location that only its soundness keeps from a release: it is secret, and the
/// outsider may have written it.
fn make_location_untrusted(random: &mut Random, outsider: Outsider, plan: &mut Plan) {
    let integrity = some_of(random, outsider.trusted_with & plan.pair.pc.integrity());
    plan.location = Label::new(integrity, plan.location.confidentiality());
    if random.chance(15) {
        plan.op = op::RAISE;
    }
}

/// A pc label that isn't trusted: it doesn't flow to a location that is secret and
/// sound, and all that the op reads may be the outsider's.
fn make_pc_label_untrusted(random: &mut Random, outsider: Outsider, plan: &mut Plan) {
    let j = outsider.trusted_with;
    let integrity = some_of(random, j);
    let confidentiality = some_of(random, integrity);
    let pc = Label::new(integrity, confidentiality);
    let mut read = || Label::new(integrity | some_of(random, j), some_of(random, confidentiality));
    (plan.word, plan.source) = (read(), read());
    let new = Label::new(
        confidentiality | some_of(random, integrity),
        confidentiality | some_of(random, integrity),
    );
    plan.new = new.0.into();
    plan.pair = Pair { pc, timing: sound_above(random, pc) };
}

/// A label above the location's that op 15 and op 16 may give it.
fn above_within(random: &mut Random, plan: &Plan) -> Label {
    let (pc, location) = (plan.pair.pc, plan.location);
    Label::new(
        pc.confidentiality() | some_of(random, location.integrity()),
        location.confidentiality() | some_of(random, pc.integrity()),
    )
}

/// A raise that passes, of a secret location.
fn make_raise(random: &mut Random, _: Outsider, plan: &mut Plan) {
    plan.op = op::RAISE;
    plan.new = above_within(random, plan).0.into();
}

/// Any labels around any pair.
fn take_any(random: &mut Random, plan: &mut Plan) {
    plan.pair = valid_pair(random);
    plan.location = location_label(random, plan.pair);
    plan.source = location_label(random, plan.pair);
    plan.word = location_label(random, plan.pair);
    plan.new = random.below(256);
}
