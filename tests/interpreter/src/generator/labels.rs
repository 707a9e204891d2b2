//! Labels and pairs drawn at random, near those that a machine runs under, so
//! that checks pass and fail about equally often.

use super::random::Random;
use crate::label::{Label, Pair};

/// Some of the principals of a set.
pub fn some_of(random: &mut Random, set: u8) -> u8 {
    match random.below(4) {
        0 => 0,
        1 => set,
        _ => set & random.bits() as u8,
    }
}

/// A sound label; often one of the four corners.
pub fn sound(random: &mut Random) -> Label {
    if random.chance(40) {
        return Label(random.pick(&[240, 240, 255, 0]));
    }
    let integrity = random.bits() as u8 & 15;
    let confidentiality = some_of(random, integrity);
    Label::new(integrity, confidentiality)
}

/// A sound label that a sound one flows to.
pub fn sound_above(random: &mut Random, label: Label) -> Label {
    let (i, c) = (label.integrity(), label.confidentiality());
    let integrity = c | some_of(random, i);
    let confidentiality = c | some_of(random, integrity);
    Label::new(integrity, confidentiality)
}

/// Any label that this one flows to.
pub fn above(random: &mut Random, label: Label) -> Label {
    let integrity = some_of(random, label.integrity());
    let confidentiality = label.confidentiality() | some_of(random, 15);
    Label::new(integrity, confidentiality)
}

/// A label that flows to this one; sound if this one is.
pub fn below(random: &mut Random, label: Label) -> Label {
    let integrity = label.integrity() | some_of(random, 15);
    let confidentiality = some_of(random, label.confidentiality());
    Label::new(integrity, confidentiality)
}

/// A label that does not flow to this one, if there is one.
pub fn not_below(random: &mut Random, label: Label) -> Label {
    for _ in 0..20 {
        let other = Label(random.bits() as u8);
        if !other.flows_to(label) {
            return other;
        }
    }
    Label::HIGHEST
}

/// A valid pair to start under.
pub fn valid_pair(random: &mut Random) -> Pair {
    let pc = sound(random);
    let timing = if random.chance(40) { pc } else { sound_above(random, pc) };
    Pair { pc, timing }
}

/// A pair that is not valid, for each of the three reasons.
pub fn invalid_pair(random: &mut Random) -> Pair {
    loop {
        let (pc, timing) = (Label(random.bits() as u8), Label(random.bits() as u8));
        let pair = match random.below(3) {
            0 => Pair { pc: sound(random), timing: sound(random) },
            1 => Pair { pc, timing: above(random, pc) },
            _ => Pair { pc: below(random, timing), timing },
        };
        if !pair.is_valid() {
            return pair;
        }
    }
}

/// A label for a register or a word of a machine that starts under this pair.
pub fn location_label(random: &mut Random, pair: Pair) -> Label {
    match random.weighted(&[30, 25, 20, 12, 5, 8]) {
        0 => Label::LOWEST,
        1 => pair.pc,
        2 => above(random, pair.pc),
        3 => below(random, pair.pc),
        4 => above(random, pair.timing),
        _ => Label(random.bits() as u8),
    }
}

/// A label to hold as a value in a register, for ops 15 to 18 to take: often
/// one that they accept.
pub fn label_value(random: &mut Random, pair: Pair) -> Label {
    match random.weighted(&[15, 15, 30, 15, 10, 15]) {
        0 => pair.pc,
        1 => pair.timing,
        2 => sound_above(random, pair.timing),
        3 => above(random, pair.pc),
        4 => pair.pc.reflection(),
        _ => Label(random.bits() as u8),
    }
}
