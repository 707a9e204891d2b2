//! Records that are not fit, in each single way: every condition of fitness is
//! broken alone.
//!
//! One can't be: where p flows to a sound t, p is sound too, so an unsound p
//! comes with an unsound t or with a p that doesn't flow to t. For the same
//! reason an upcall's kept labels are unsound only where they don't flow to the
//! current ones.

use interpreter::machine::{end, END_TICK_BOUND, MAX_GATES, MAX_LIMIT, MAX_SIZE, ZERO_REGISTER};
use interpreter::{Call, Label, Machine, Pair, Return};

/// A way to be unfit. `prepare` leaves the record fit, `spoil` breaks it.
pub struct Break {
    pub name: &'static str,
    pub prepare: fn(&mut Machine),
    pub spoil: fn(&mut Machine),
}

const fn way(name: &'static str, prepare: fn(&mut Machine), spoil: fn(&mut Machine)) -> Break {
    Break { name, prepare, spoil }
}

/// Both places empty, the pair the lowest.
fn alone(m: &mut Machine) {
    (m.first, m.second) = (Call::Empty, Call::Empty);
    m.pair = Pair::new(240, 240);
}

/// The same with a gate call open; it keeps these labels.
fn in_gate(m: &mut Machine) {
    alone(m);
    m.first = kept_gate(255, 255);
}

/// The same with an upcall open, which flows to every pair.
fn in_upcall(m: &mut Machine) {
    alone(m);
    m.first = kept_upcall(m, 240, 240, 9);
}

/// The same with an upcall over a gate call.
fn in_both(m: &mut Machine) {
    alone(m);
    m.first = kept_gate(0, 0);
    m.second = kept_upcall(m, 240, 240, 9);
}

fn kept_gate(p: u8, t: u8) -> Call {
    Call::Gate(Return { pc: 3, pair: Pair::new(p, t) })
}

/// An upcall that ends so many ticks after the clock.
fn kept_upcall(m: &Machine, p: u8, t: u8, time: u64) -> Call {
    Call::Upcall(Return { pc: 2, pair: Pair::new(p, t) }, m.clock + time)
}

/// The same upcall, to end at this tick.
fn ending(call: Call, tick: u64) -> Call {
    match call {
        Call::Upcall(back, _) => Call::Upcall(back, tick),
        call => call,
    }
}

/// A clock that has come somewhere, so that a tick can lie before it.
fn later(m: &mut Machine) {
    (m.clock, m.limit) = (m.clock.max(5), m.limit.max(5));
}

fn stalled(m: &mut Machine) {
    (m.end, m.why) = (end::STALLED, 2);
}

/// "these ranges hold, clock ≤ limit"
pub const RANGES: [Break; 18] = [
    way("size 0", |_| {}, |m| m.size = 0),
    way("size 2,049", |_| {}, |m| m.size = MAX_SIZE + 1),
    way("size 2^32 - 1", |_| {}, |m| m.size = u32::MAX),
    way("limit 0", |m| (m.clock, m.limit) = (0, 1), |m| m.limit = 0),
    way("limit 2^24 + 1", |_| {}, |m| m.limit = MAX_LIMIT + 1),
    way("limit 2^32 - 1", |_| {}, |m| m.limit = u32::MAX.into()),
    way("nine gates", |_| {}, |m| m.gate_count = MAX_GATES + 1),
    way("2^32 - 1 gates", |_| {}, |m| m.gate_count = u32::MAX as usize),
    way("end 4", |m| (m.end, m.why) = (end::RUNNING, 0), |m| m.end = 4),
    way("end 255", |m| (m.end, m.why) = (end::SPENT, 0), |m| m.end = 255),
    way("why 1 at end 0", |m| (m.end, m.why) = (end::RUNNING, 0), |m| m.why = 1),
    way("why 3 at end 1", |m| (m.end, m.why) = (end::HALTED, 0), |m| m.why = 3),
    way("why 2 at end 2", |m| (m.end, m.why) = (end::SPENT, 0), |m| m.why = 2),
    way("why 0 at end 3", stalled, |m| m.why = 0),
    way("why 4 at end 3", stalled, |m| m.why = 4),
    way("clock above the limit", alone, |m| m.clock = m.limit + 1),
    way("clock above the limit in a gate call", in_gate, |m| m.clock = m.limit + 1),
    way("clock above the limit in an upcall", in_upcall, |m| {
        m.clock = m.limit + 1;
        m.first = kept_upcall(m, 240, 240, 9);
    }),
];

/// "the current and all kept pairs are valid"
pub const PAIRS: [Break; 13] = [
    way("t unsound", alone, |m| m.pair = Pair::new(240, 15)),
    way("t unsound in a gate call", in_gate, |m| m.pair = Pair::new(240, 15)),
    way("t unsound in an upcall", in_upcall, |m| m.pair = Pair::new(240, 15)),
    way("p and t unsound", alone, |m| m.pair = Pair::new(18, 18)),
    way("p unsound and not to t", alone, |m| m.pair = Pair::new(18, 240)),
    way("p not to t", alone, |m| m.pair = Pair::new(0, 240)),
    way("p not to t in an upcall", in_upcall, |m| m.pair = Pair::new(255, 240)),
    way("a gate call's t unsound", in_gate, |m| m.first = kept_gate(240, 15)),
    way("a gate call's p and t unsound", in_gate, |m| m.first = kept_gate(18, 18)),
    way("a gate call's p not to t", in_gate, |m| m.first = kept_gate(255, 240)),
    way("below an upcall, a gate call's t unsound", in_both, |m| m.first = kept_gate(240, 15)),
    way("below an upcall, a gate call's p not to t", in_both, |m| m.first = kept_gate(0, 240)),
    way(
        "an upcall's p not to t",
        |m| {
            in_upcall(m);
            m.pair = Pair::new(0, 0);
        },
        |m| m.first = kept_upcall(m, 0, 240, 9),
    ),
];

/// "an upcall's kept labels flow to the current ones, its end tick at least the
/// clock and below 2^33"
pub const UPCALLS: [Break; 11] = [
    way("an upcall's t not to t", in_upcall, |m| m.first = kept_upcall(m, 240, 255, 9)),
    way("over a gate call, an upcall's t not to t", in_both, |m| {
        m.second = kept_upcall(m, 240, 0, 9);
    }),
    way(
        "an upcall's p not to p",
        |m| {
            in_upcall(m);
            m.pair = Pair::new(240, 0);
        },
        |m| m.first = kept_upcall(m, 0, 0, 9),
    ),
    way(
        "over a gate call, an upcall's p not to p",
        |m| {
            in_both(m);
            m.pair = Pair::new(240, 255);
        },
        |m| m.second = kept_upcall(m, 255, 255, 9),
    ),
    way("an upcall's labels unsound", in_upcall, |m| m.first = kept_upcall(m, 15, 15, 9)),
    way(
        "end tick below the clock",
        |m| {
            later(m);
            in_upcall(m);
        },
        |m| m.first = ending(m.first, m.clock - 1),
    ),
    way(
        "over a gate call, end tick 0",
        |m| {
            later(m);
            in_both(m);
        },
        |m| m.second = ending(m.second, 0),
    ),
    way("end tick 2^33", in_upcall, |m| m.first = ending(m.first, END_TICK_BOUND)),
    way("over a gate call, end tick 2^33", in_both, |m| {
        m.second = ending(m.second, END_TICK_BOUND);
    }),
    way("end tick 2^64 - 1", in_upcall, |m| m.first = ending(m.first, u64::MAX)),
    way("end tick 2^32 times the clock", in_upcall, |m| {
        m.first = ending(m.first, (m.clock + 9) << 33);
    }),
];

/// "none, a gate call, an upcall, or an upcall over a gate call, the older
/// first and a lone call in the first place"
pub const SHAPES: [Break; 5] = [
    way("a lone gate call second", in_gate, |m| {
        (m.first, m.second) = (Call::Empty, m.first);
    }),
    way("a lone upcall second", in_upcall, |m| {
        (m.first, m.second) = (Call::Empty, m.first);
    }),
    way("a gate call over a gate call", in_gate, |m| m.second = m.first),
    way("an upcall over an upcall", in_upcall, |m| m.second = m.first),
    way("a gate call over an upcall", in_both, |m| {
        (m.first, m.second) = (m.second, m.first);
    }),
];

/// So many gates of valid pairs. The words behind them hold pairs that are not
/// valid, of which fitness asks nothing.
fn gates<const COUNT: usize>(m: &mut Machine) {
    m.gate_count = COUNT;
    m.gates.iter_mut().for_each(|gate| gate.pair = Pair::new(15, 18));
    m.gates[..COUNT].iter_mut().for_each(|gate| gate.pair = Pair::new(240, 255));
}

/// A gate gets another pair.
fn put_gate(m: &mut Machine, gate: usize, p: u8, t: u8) {
    m.gates[gate].pair = Pair::new(p, t);
}

/// "A fit record now also has only valid gates": each gate, as the last one and as
/// one of eight, in each way in which a pair is not valid.
pub const GATES: [Break; 20] = [
    way("gate 0 of 1: p not to t", gates::<1>, |m| put_gate(m, 0, 255, 240)),
    way("gate 0 of 1: t unsound", gates::<1>, |m| put_gate(m, 0, 240, 15)),
    way("gate 0 of 1: p and t unsound", gates::<1>, |m| put_gate(m, 0, 18, 18)),
    way("gate 0 of 1: p unsound and not to t", gates::<1>, |m| put_gate(m, 0, 18, 240)),
    way("gate 0 of 1: by one principal", gates::<1>, |m| put_gate(m, 0, 1, 1)),
    way("gate 1 of 2: p not to t", gates::<2>, |m| put_gate(m, 1, 0, 16)),
    way("gate 2 of 3: t unsound", gates::<3>, |m| put_gate(m, 2, 240, 8)),
    way("gate 3 of 4: p and t unsound", gates::<4>, |m| put_gate(m, 3, 15, 15)),
    way("gate 4 of 5: p not to t", gates::<5>, |m| put_gate(m, 4, 241, 240)),
    way("gate 5 of 6: t unsound", gates::<6>, |m| put_gate(m, 5, 240, 225)),
    way("gate 6 of 7: p and t unsound", gates::<7>, |m| put_gate(m, 6, 4, 4)),
    way("gate 7 of 8: p not to t", gates::<8>, |m| put_gate(m, 7, 255, 240)),
    way("gate 0 of 8: t unsound", gates::<8>, |m| put_gate(m, 0, 240, 15)),
    way("gate 1 of 8: p and t unsound", gates::<8>, |m| put_gate(m, 1, 18, 18)),
    way("gate 2 of 8: p not to t", gates::<8>, |m| put_gate(m, 2, 0, 240)),
    way("gate 3 of 8: t unsound", gates::<8>, |m| put_gate(m, 3, 240, 2)),
    way("gate 4 of 8: p and t unsound", gates::<8>, |m| put_gate(m, 4, 33, 33)),
    way("gate 5 of 8: p unsound and not to t", gates::<8>, |m| put_gate(m, 5, 18, 240)),
    way("gate 6 of 8: p not to t", gates::<8>, |m| put_gate(m, 6, 255, 0)),
    way("gate 7 of 8: t unsound", gates::<8>, |m| put_gate(m, 7, 240, 15)),
];

/// Register 0 "always reads 0 with the lowest label, in every fit record too":
/// another value, near and far, and another label, by one principal and by all.
pub const ZERO: [Break; 4] = [
    way("register 0 of value 1", |_| {}, |m| m.registers[ZERO_REGISTER].value = 1),
    way("register 0 of value 2^32 - 1", alone, |m| m.registers[ZERO_REGISTER].value = u32::MAX),
    way("register 0 of label 241", |_| {}, |m| m.registers[ZERO_REGISTER].label = Label(241)),
    way("register 0 of the highest label", in_both, |m| {
        m.registers[ZERO_REGISTER].label = Label::HIGHEST;
    }),
];

/// All the ways.
pub fn breaks() -> impl Iterator<Item = &'static Break> {
    RANGES.iter().chain(&PAIRS).chain(&UPCALLS).chain(&SHAPES).chain(&GATES).chain(&ZERO)
}
