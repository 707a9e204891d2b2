//! The machine's record, and when it is fit.
//!
//! All fields are public and wide enough for values out of range, so that a
//! record that is not fit can be written down and refused.

use crate::label::{Label, Pair};

/// "Size (1 to 2,048 words of 32 bits)"
pub const MAX_SIZE: u32 = 2_048;

/// "limit (1 to 16,777,216 ticks)"
pub const MAX_LIMIT: u64 = 16_777_216;

/// "up to eight gates"
pub const MAX_GATES: usize = 8;

/// An upcall's "end tick at least the clock and below 2^33".
pub const END_TICK_BOUND: u64 = 1 << 33;

/// The register that "always reads 0 with the lowest label".
pub const ZERO_REGISTER: usize = 0;

/// "end (0 running, 1 halted, 2 clock spent, 3 stalled)"
pub mod end {
    pub const RUNNING: u8 = 0;
    pub const HALTED: u8 = 1;
    pub const SPENT: u8 = 2;
    pub const STALLED: u8 = 3;
}

/// "sixteen registers, each a 32-bit value and a label"
#[derive(Clone, Copy, Debug, PartialEq, Eq)]
pub struct Register {
    pub value: u32,
    pub label: Label,
}

/// "gates (place and pair)": where a call gate leads and under which labels.
#[derive(Clone, Copy, Debug, PartialEq, Eq)]
pub struct Gate {
    pub pc: u32,
    pub pair: Pair,
}

/// "A call keeps its return place and pair"
#[derive(Clone, Copy, Debug, PartialEq, Eq)]
pub struct Return {
    pub pc: u32,
    pub pair: Pair,
}

/// One of "two places for open calls, each empty, a gate call or an upcall".
#[derive(Clone, Copy, Debug, PartialEq, Eq)]
pub enum Call {
    Empty,
    Gate(Return),
    /// "an upcall also its end tick"
    Upcall(Return, u64),
}

/// The record; the paper's place is `pc`, its error place `error_pc`, its
/// place and clock labels are `pair`.
#[derive(Clone, Debug, PartialEq, Eq)]
pub struct Machine {
    pub size: u32,
    pub registers: [Register; 16],
    pub pc: u32,
    pub pair: Pair,
    pub clock: u64,
    pub limit: u64,
    pub error_pc: u32,
    pub gates: [Gate; MAX_GATES],
    pub gate_count: usize,
    pub end: u8,
    pub why: u8,
    /// The older call, or the only one.
    pub first: Call,
    /// The newer call, where there are two.
    pub second: Call,
}

/// Whether a register can't be written or relabelled: register 0 is the one.
#[inline]
pub fn is_constant(register: usize) -> bool {
    register == ZERO_REGISTER
}

impl Register {
    /// "All others are value 0, label 240"
    pub const UNSET: Register = Register { value: 0, label: Label::LOWEST };
}

impl Call {
    /// A call that is not open keeps nothing.
    pub fn is_empty(self) -> bool {
        self == Call::Empty
    }
}

impl Machine {
    /// "clock, end and why start at 0, with no open call"; the registers are
    /// those of a text without R lines, and there is no gate yet.
    pub fn new(size: u32, error_pc: u32, pc: u32, pair: Pair, limit: u64) -> Machine {
        let no_gate = Gate { pc: 0, pair: Pair { pc: Label::LOWEST, timing: Label::LOWEST } };
        Machine {
            size,
            registers: [Register::UNSET; 16],
            pc,
            pair,
            clock: 0,
            limit,
            error_pc,
            gates: [no_gate; MAX_GATES],
            gate_count: 0,
            end: end::RUNNING,
            why: 0,
            first: Call::Empty,
            second: Call::Empty,
        }
    }

    /// The newest open call: "the older first and a lone call in the first
    /// place", so the second place decides when it is filled.
    pub fn newest(&self) -> Call {
        match self.second {
            Call::Empty => self.first,
            call => call,
        }
    }

    /// "'In an upcall' means that the newest call is one." This gives what it
    /// keeps.
    pub fn open_upcall(&self) -> Option<(Return, u64)> {
        match self.newest() {
            Call::Upcall(back, end_tick) => Some((back, end_tick)),
            _ => None,
        }
    }

    /// "lent words or labels shorter than the size"
    pub fn memory_is_short(&self, words: &[u32], labels: &[u8]) -> bool {
        let size = self.size as usize;
        words.len() < size || labels.len() < size
    }

    /// "these ranges hold": size, limit, number of gates, end and why. "why (1
    /// to 3 at end 3, else 0)".
    fn ranges_hold(&self) -> bool {
        let why_holds = match self.end {
            end::STALLED => (1..=3).contains(&self.why),
            end::RUNNING | end::HALTED | end::SPENT => self.why == 0,
            _ => false,
        };
        (1..=MAX_SIZE).contains(&self.size)
            && (1..=MAX_LIMIT).contains(&self.limit)
            && self.gate_count <= MAX_GATES
            && why_holds
    }

    /// "A fit record now also has only valid gates." Its gates are those below
    /// their number; of what stands behind them nothing is asked.
    fn gates_are_valid(&self) -> bool {
        self.gates.iter().take(self.gate_count).all(|gate| gate.pair.is_valid())
    }

    /// Register 0 "always reads 0 with the lowest label, in every fit record
    /// too". Nothing is asked of the others.
    fn constants_hold(&self) -> bool {
        let mut registers = self.registers.iter().enumerate();
        registers.all(|(number, register)| !is_constant(number) || *register == Register::UNSET)
    }

    /// "none, a gate call, an upcall, or an upcall over a gate call, the older
    /// first and a lone call in the first place."
    fn calls_are_shaped(&self) -> bool {
        matches!((self.first, self.second), (_, Call::Empty) | (Call::Gate(_), Call::Upcall(..)))
    }

    /// "all kept pairs are valid, and an upcall's kept labels flow to the
    /// current ones, its end tick at least the clock and below 2^33."
    fn keeps_well(&self, call: Call) -> bool {
        match call {
            Call::Empty => true,
            Call::Gate(back) => back.pair.is_valid(),
            Call::Upcall(back, end_tick) => {
                back.pair.is_valid()
                    && back.pair.flows_to(self.pair)
                    && self.clock <= end_tick
                    && end_tick < END_TICK_BOUND
            }
        }
    }
}

/// "The record is *fit* when these ranges hold, clock ≤ limit, the current and
/// all kept pairs are valid, and an upcall's kept labels flow to the current
/// ones, its end tick at least the clock and below 2^33." And register 0 reads
/// 0 with the lowest label, and the pairs of the gates are valid.
pub fn is_fit(machine: &Machine) -> bool {
    machine.ranges_hold()
        && machine.gates_are_valid()
        && machine.constants_hold()
        && machine.calls_are_shaped()
        && machine.clock <= machine.limit
        && machine.pair.is_valid()
        && machine.keeps_well(machine.first)
        && machine.keeps_well(machine.second)
}
