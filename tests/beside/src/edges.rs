//! Fit records that no load and no run gives, or seldom: at the edges of
//! fitness, where one condition more would refuse them.

use interpreter::generator::labels::{invalid_pair, valid_pair};
use interpreter::generator::random::Random;
use interpreter::machine::{end, END_TICK_BOUND, MAX_GATES, MAX_LIMIT, MAX_SIZE, ZERO_REGISTER};
use interpreter::{Call, Label, Machine, Pair, Register, Return};

/// A change after which a fit record is fit.
pub struct Edge {
    pub name: &'static str,
    pub put: fn(&mut Machine, &mut Random),
}

const fn edge(name: &'static str, put: fn(&mut Machine, &mut Random)) -> Edge {
    Edge { name, put }
}

/// An upcall that was called under the lowest pair, or under the current one.
fn upcall(m: &Machine, random: &mut Random, end_tick: u64) -> Call {
    let pair = if random.chance(50) { Pair::new(240, 240) } else { m.pair };
    Call::Upcall(Return { pc: random.below(m.size + 2), pair }, end_tick)
}

/// Puts the upcall on top, over a gate call where one is open.
fn put_upcall(m: &mut Machine, random: &mut Random, end_tick: fn(&Machine) -> u64) {
    let call = upcall(m, random, end_tick(m));
    match m.first {
        Call::Gate(_) => m.second = call,
        _ => (m.first, m.second) = (call, Call::Empty),
    }
}

fn put_end(m: &mut Machine, end: u8) {
    (m.end, m.why) = (end, 3 * u8::from(end == end::STALLED));
}

/// The registers of which fitness asks nothing: all but register 0.
fn settable(m: &mut Machine) -> &mut [Register] {
    &mut m.registers[ZERO_REGISTER + 1..]
}

/// Fitness asks nothing of an ended record's clock and calls that it doesn't ask
/// of a running one's.
pub const ENDED: [Edge; 7] = [
    edge("halted in an upcall", |m, r| {
        put_upcall(m, r, |m| m.clock + 3);
        put_end(m, end::HALTED);
    }),
    edge("stalled in an upcall", |m, r| {
        put_upcall(m, r, |m| m.clock + 3);
        put_end(m, end::STALLED);
    }),
    edge("spent below the limit", |m, _| {
        m.limit = m.clock + 1;
        put_end(m, end::SPENT);
    }),
    edge("halted at the limit", |m, _| {
        m.clock = m.clock.max(1);
        m.limit = m.clock;
        put_end(m, end::HALTED);
    }),
    edge("stalled", |m, _| put_end(m, end::STALLED)),
    edge("halted where an op stands", |m, r| {
        m.pc = r.below(m.size);
        put_end(m, end::HALTED);
    }),
    edge("ended, to run again", |m, _| put_end(m, end::RUNNING)),
];

/// What "these ranges", valid pairs and the end tick allow.
pub const RANGES: [Edge; 14] = [
    edge("running at the limit", |m, _| {
        m.clock = m.clock.max(1);
        m.limit = m.clock;
        put_end(m, end::RUNNING);
    }),
    edge("end tick at the clock", |m, r| {
        put_upcall(m, r, |m| m.clock);
        put_end(m, end::RUNNING);
    }),
    edge("end tick 2^33 - 1", |m, r| {
        put_upcall(m, r, |_| END_TICK_BOUND - 1);
        put_end(m, end::RUNNING);
    }),
    edge("end tick at the limit", |m, r| {
        put_upcall(m, r, |m| m.limit);
        put_end(m, end::RUNNING);
    }),
    edge("end tick one below the limit", |m, r| {
        m.limit = m.clock + 4;
        put_upcall(m, r, |m| m.clock + 3);
        put_end(m, end::RUNNING);
    }),
    edge("no gates before their words", |m, r| {
        m.gate_count = 0;
        m.gates[r.index(MAX_GATES)].pc = r.bits();
    }),
    edge("gate call kept above the current pair", |m, r| {
        m.pair = Pair::new(240, 240);
        let back = Return { pc: r.bits(), pair: Pair::new(255, 255) };
        (m.first, m.second) = (Call::Gate(back), Call::Empty);
    }),
    edge("pc 2^32 - 1", |m, _| m.pc = u32::MAX),
    edge("pc at the size", |m, _| m.pc = m.size),
    edge("pc at the error pc", |m, _| m.pc = m.error_pc),
    edge("unsound labels", |m, r| {
        let label = Label(r.bits() as u8);
        settable(m).iter_mut().for_each(|register| register.label = label);
    }),
    edge("greatest values", |m, _| {
        settable(m).iter_mut().for_each(|register| register.value = u32::MAX);
    }),
    edge("greatest limit", |m, _| {
        (m.first, m.second) = (Call::Empty, Call::Empty);
        m.limit = MAX_LIMIT;
        m.clock = MAX_LIMIT - 300 + m.clock.min(300);
    }),
    edge("greatest size", |m, _| m.size = MAX_SIZE),
];

/// So many gates of any valid pairs, and behind them pairs that are not valid.
fn put_gates<const COUNT: usize>(m: &mut Machine, random: &mut Random) {
    m.gate_count = COUNT;
    m.gates[..COUNT].iter_mut().for_each(|gate| gate.pair = valid_pair(random));
    m.gates[COUNT..].iter_mut().for_each(|gate| gate.pair = invalid_pair(random));
}

/// "A fit record now also has only valid gates": those below their number. What
/// stands behind them may be anything, and no load and no run puts it there.
pub const GATES: [Edge; 9] = [
    edge("invalid pairs behind no gate", put_gates::<0>),
    edge("invalid pairs behind 1 gate", put_gates::<1>),
    edge("invalid pairs behind 2 gates", put_gates::<2>),
    edge("invalid pairs behind 3 gates", put_gates::<3>),
    edge("invalid pairs behind 4 gates", put_gates::<4>),
    edge("invalid pairs behind 5 gates", put_gates::<5>),
    edge("invalid pairs behind 6 gates", put_gates::<6>),
    edge("an invalid pair behind 7 gates", put_gates::<7>),
    edge("eight gates of any valid pairs", put_gates::<MAX_GATES>),
];

/// All the changes.
pub fn edges() -> impl Iterator<Item = &'static Edge> {
    ENDED.iter().chain(&RANGES).chain(&GATES)
}
