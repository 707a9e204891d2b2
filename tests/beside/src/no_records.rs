//! Buffers that hold no record: a word outside its field's range, or a call's
//! words that are none. And buffers that are too short for one.

use crate::layout::{at, SPAN};
use interpreter::generator::random::Random;

/// One more than the largest number of 32 and of 8 bits.
const WIDE: u64 = 1 << 32;
const WIDE_LABEL: u64 = 256;

/// A way to hold no record; it takes the words of a fit one.
pub struct NoRecord {
    pub name: &'static str,
    pub spoil: fn(&mut Vec<u64>, &mut Random),
}

const fn way(name: &'static str, spoil: fn(&mut Vec<u64>, &mut Random)) -> NoRecord {
    NoRecord { name, spoil }
}

/// Numbers that would be right if their upper bits were cut off.
pub const WIDE_NUMBERS: [NoRecord; 17] = [
    way("wide size", |w, _| w[at::SIZE] += WIDE),
    way("wide limit", |w, _| w[at::LIMIT] += WIDE),
    way("wide error pc", |w, _| w[at::ERROR_PC] += WIDE),
    way("wide gate count", |w, _| w[at::GATE_COUNT] += WIDE),
    way("wide gate entry", |w, r| w[at::gate(r.index(8))] += WIDE),
    way("wide pc label of a gate", |w, r| w[at::gate(r.index(8)) + 1] += WIDE_LABEL),
    way("wide timing label of a gate", |w, r| w[at::gate(r.index(8)) + 2] += WIDE_LABEL),
    way("wide label of the last gate", |w, _| w[at::gate(7) + 2] += WIDE),
    way("wide pc", |w, _| w[at::PC] += WIDE),
    way("wide pc label", |w, _| w[at::PC_LABEL] += WIDE_LABEL),
    way("wide timing label", |w, _| w[at::TIMING_LABEL] += WIDE_LABEL),
    way("wide clock", |w, _| w[at::CLOCK] += WIDE),
    way("wide end", |w, _| w[at::END] += WIDE_LABEL),
    way("wide why", |w, _| w[at::WHY] += WIDE_LABEL),
    way("wide value of a register", |w, r| w[at::value(r.index(16))] += WIDE),
    way("wide label of a register", |w, r| w[at::label(r.index(16))] += WIDE_LABEL),
    way("label of a register 2^64 - 1", |w, r| w[at::label(r.index(16))] = u64::MAX),
];

/// Five words that are no call.
pub const NO_CALLS: [NoRecord; 11] = [
    way("unknown kind of the first call", |w, _| w[at::call(0)] = 3),
    way("unknown kind of the second call", |w, _| w[at::call(1)] = 3),
    way("wide kind of a call", |w, r| w[at::call(r.index(2))] += WIDE_LABEL),
    way("empty call with a return pc", |w, r| put_call(w, r.index(2), [0, 1, 0, 0, 0])),
    way("empty call with a pc label", |w, r| put_call(w, r.index(2), [0, 0, 240, 0, 0])),
    way("empty call with a timing label", |w, r| put_call(w, r.index(2), [0, 0, 0, 240, 0])),
    way("empty call with an end tick", |w, r| put_call(w, r.index(2), [0, 0, 0, 0, 1])),
    way("gate call with an end tick", |w, _| put_call(w, 0, [1, 0, 240, 240, 1])),
    way("wide return pc", |w, _| put_call(w, 0, [1, WIDE, 240, 240, 0])),
    way("wide pc label of a call", |w, _| put_call(w, 0, [1, 0, 240 + 256, 240, 0])),
    way("wide timing label of a call", |w, _| put_call(w, 0, [1, 0, 240, 240 + 256, 0])),
];

/// Too few words.
pub const SHORT_BUFFERS: [NoRecord; 4] = [
    way("one word too few", |w, _| w.truncate(SPAN - 1)),
    way("half the words", |w, _| w.truncate(SPAN / 2)),
    way("half the words, the first one wide", |w, _| {
        w.truncate(SPAN / 2);
        w[at::SIZE] += WIDE;
    }),
    way("no word", |w, _| w.clear()),
];

fn put_call(words: &mut [u64], k: usize, call: [u64; 5]) {
    words[at::call(k)..at::call(k) + 5].copy_from_slice(&call);
}

/// All the ways of a buffer that is long enough.
pub fn no_records() -> impl Iterator<Item = &'static NoRecord> {
    WIDE_NUMBERS.iter().chain(&NO_CALLS)
}
