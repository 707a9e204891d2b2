//! Divisions, ops 23 and 24: what they can meet besides what every op can.

use super::census::Census;
use super::random::Random;
use super::words::with_operands;
use crate::instruction::{op, Instruction};
use crate::machine::{Machine, Register, ZERO_REGISTER};
use crate::step::{Event, DIVISION_TICKS};

/// All that must come up, of each of the two.
pub const NOTES: [&str; 30] = [
    "op 23 with the divisor 0",
    "op 24 with the divisor 0",
    "op 23 with the divisor 1",
    "op 24 with the divisor 1",
    "op 23 with the divisor 2^32 - 1",
    "op 24 with the divisor 2^32 - 1",
    "op 23 with a divisor above the dividend",
    "op 24 with a divisor above the dividend",
    "op 23 with a divisor from 2 to the dividend",
    "op 24 with a divisor from 2 to the dividend",
    "op 23 with a divisor from 2 to the dividend, this at least 2^31",
    "op 24 with a divisor from 2 to the dividend, this at least 2^31",
    "op 23 with register 0 for the dividend",
    "op 24 with register 0 for the dividend",
    "op 23 with register 0 for the divisor",
    "op 24 with register 0 for the divisor",
    "op 23 with an operand hidden from t, passed",
    "op 24 with an operand hidden from t, passed",
    "op 23 with an operand hidden from t, failed",
    "op 24 with an operand hidden from t, failed",
    "op 23 on register 0 with an operand hidden from t",
    "op 24 on register 0 with an operand hidden from t",
    "op 23 finishes at the end tick",
    "op 24 finishes at the end tick",
    "op 23 would finish one tick past the end tick",
    "op 24 would finish one tick past the end tick",
    "op 23 finishes at the limit",
    "op 24 finishes at the limit",
    "op 23 would finish one tick beyond the limit",
    "op 24 would finish one tick beyond the limit",
];

/// Whether an op divides.
pub fn divides(number: u8) -> bool {
    matches!(number, op::DIVIDE..=op::REMAINDER)
}

/// From here on a value with a sign would be negative.
pub const NEGATIVE: u32 = 1 << 31;

/// What few registers hold, and a division shall often meet.
#[derive(Clone, Copy, Debug, PartialEq, Eq)]
pub enum Edge {
    /// The divisor 0.
    Zero,
    /// The divisor 1 or 2^32 - 1.
    Divisor,
    /// A dividend that would be negative, over any other divisor.
    Dividend,
}

impl Edge {
    pub const ALL: [Edge; 3] = [Edge::Zero, Edge::Divisor, Edge::Dividend];

    /// The word with operands that meet it, as far as there are any.
    pub fn with_operands(self, random: &mut Random, machine: &Machine, word: u32) -> u32 {
        let is_dividend = |dividend: Register| self != Edge::Dividend || dividend.value >= NEGATIVE;
        let is_divisor = |divisor: Register| match divisor.value {
            0 => self == Edge::Zero,
            1 | u32::MAX => self == Edge::Divisor,
            _ => self == Edge::Dividend,
        };
        with_operands(random, machine, word, is_dividend, is_divisor)
    }
}

/// Whether a division can finish by the end tick; outside an upcall it can.
pub fn has_time(machine: &Machine) -> bool {
    let upcall = machine.open_upcall();
    upcall.is_none_or(|(_, end_tick)| machine.clock + DIVISION_TICKS <= end_tick)
}

/// A division that was fetched.
pub struct Division<'a> {
    pub before: &'a Machine,
    pub instruction: Instruction,
    /// The clock at which it would finish.
    pub finish: u64,
}

impl Division<'_> {
    /// Counts what it meets.
    pub fn count(&self, census: &mut Census, event: Event) {
        match event {
            Event::Passed => self.count_passed(census),
            Event::Failed => self.count_failed(census),
            _ => {}
        }
        self.count_time(census, event);
    }

    fn note_if(&self, census: &mut Census, condition: bool, what: &str) {
        census.note_if(condition, &format!("op {} {what}", self.instruction.op()));
    }

    /// One that gives its result: what it divides, and by what.
    fn count_passed(&self, census: &mut Census) {
        let (b, c) = (self.instruction.b(), self.instruction.c());
        let registers = &self.before.registers;
        let (dividend, divisor) = (registers[b].value, registers[c].value);
        let is_common = divisor >= 2 && divisor <= dividend;
        let is_large = dividend >= NEGATIVE;
        let kinds = [
            (divisor == 0, "with the divisor 0"),
            (divisor == 1, "with the divisor 1"),
            (divisor == u32::MAX, "with the divisor 2^32 - 1"),
            (divisor > dividend, "with a divisor above the dividend"),
            (is_common, "with a divisor from 2 to the dividend"),
            (is_common && is_large, "with a divisor from 2 to the dividend, this at least 2^31"),
            (b == ZERO_REGISTER, "with register 0 for the dividend"),
            (c == ZERO_REGISTER, "with register 0 for the divisor"),
            (self.is_hidden(), "with an operand hidden from t, passed"),
        ];
        kinds.iter().for_each(|&(met, what)| self.note_if(census, met, what));
    }

    /// One that passes by, for its labels or because it would write register 0.
    fn count_failed(&self, census: &mut Census) {
        let what = if self.instruction.a() == ZERO_REGISTER {
            "on register 0 with an operand hidden from t"
        } else {
            "with an operand hidden from t, failed"
        };
        self.note_if(census, self.is_hidden(), what);
    }

    /// Whether an operand's label doesn't flow to the timing label.
    fn is_hidden(&self) -> bool {
        let Machine { pair, registers, .. } = self.before;
        let operands = [self.instruction.b(), self.instruction.c()];
        operands.iter().any(|&register| !registers[register].label.flows_to(pair.timing))
    }

    /// How it stands to the end tick and to the limit.
    fn count_time(&self, census: &mut Census, event: Event) {
        let (finish, limit) = (self.finish, self.before.limit);
        let is_done = matches!(event, Event::Passed | Event::Failed);
        self.note_if(census, is_done && finish == limit, "finishes at the limit");
        let is_barred = event == Event::Spent && finish == limit + 1;
        self.note_if(census, is_barred, "would finish one tick beyond the limit");
        let Some((_, end_tick)) = self.before.open_upcall() else {
            return;
        };
        self.note_if(census, is_done && finish == end_tick, "finishes at the end tick");
        let is_late = event == Event::Closed(2) && finish == end_tick + 1;
        self.note_if(census, is_late, "would finish one tick past the end tick");
    }
}
