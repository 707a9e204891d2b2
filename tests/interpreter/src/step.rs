//! One step of the machine, and the run. What the ops do is told in `ops`.
//!
//! A step decides in this order: has the clock reached the limit, does the
//! fetch succeed, does an open upcall close, does the op finish within the
//! limit; only then is the op carried out.
//!
//! What seldom comes up is kept out of line, so that the loop of `run` is small
//! and keeps more in the processor's registers.

use crate::instruction::{op, Instruction};
use crate::label::Label;
use crate::machine::{end, is_fit, Call, Machine, Return};
use crate::{NOT_FIT, SHORT_MEMORY};

/// What a step did. Nothing in the machine depends on it; it is there for
/// those who watch a run.
#[derive(Clone, Copy, Debug, PartialEq, Eq)]
pub enum Event {
    /// "An ended record steps to itself."
    Ended,
    /// The step "only sets the clock to the limit and the end to 2".
    Spent,
    /// The same, where the step would have closed an upcall with this cause.
    SpentClosing(u8),
    /// A failed fetch outside an upcall, away from the error place, with why.
    FetchFailed(u8),
    /// A failed fetch at the error place: "the run ends: end 3", with why.
    Stalled(u8),
    /// The upcall was closed with this cause.
    Closed(u8),
    /// An op passed its checks and had its effect.
    Passed,
    /// "A failed check ... only adds 1 to the place, in the same ticks"
    Failed,
}

/// Fetch fails "when the place is not below the size (why 1), the word's label
/// doesn't flow to p (2), or the op is unknown (3)".
const OUTSIDE: u8 = 1;
const HIDDEN: u8 = 2;
const UNKNOWN: u8 = 3;

/// "op 19 ends it with cause 1"
const CAUSE_ENDED: u8 = 1;
/// "an op that would finish past the end tick isn't carried out, with cause 2"
const CAUSE_LATE: u8 = 2;
/// "A failed fetch, a failed 11, 12 or 13, or op 22 ends it with cause 3."
const CAUSE_BROKEN: u8 = 3;

/// The last column of the op table, by op. Op 8 is worked out instead. Ops 23 and
/// 24 come "each in 34 ticks whoever may see the operands".
const TICKS: [u64; op::TABLE] =
    [0, 1, 1, 1, 1, 1, 1, 1, 0, 3, 3, 1, 1, 1, 1, 2, 2, 2, 2, 1, 4, 4, 1, 34, 34];

/// The ticks of ops 23 and 24.
pub const DIVISION_TICKS: u64 = TICKS[op::DIVIDE as usize];

/// "register 15 gets the cause"
const STATUS: usize = 15;

impl Machine {
    /// "Elsewhere 7, 6, 8": the record is tried first, then what is lent.
    pub(crate) fn try_call(&self, words: &[u32], labels: &[u8]) -> Result<(), u8> {
        if !is_fit(self) {
            return Err(NOT_FIT);
        }
        if self.memory_is_short(words, labels) {
            return Err(SHORT_MEMORY);
        }
        Ok(())
    }

    /// "Calling a step takes the whole machine record and gives back the next
    /// one." The record is changed in place; on a refusal nothing changes. No
    /// op changes the label of a word, so the labels are only read.
    pub fn step(&mut self, words: &mut [u32], labels: &[u8]) -> Result<(), u8> {
        self.step_watched(words, labels).map(|_| ())
    }

    /// A step that also tells what it did. "An ended record steps to itself."
    pub fn step_watched(&mut self, words: &mut [u32], labels: &[u8]) -> Result<Event, u8> {
        self.try_call(words, labels)?;
        if self.end != end::RUNNING {
            return Ok(Event::Ended);
        }
        let size = self.size as usize;
        Ok(self.advance(&mut words[..size], &labels[..size]))
    }

    /// "A run steps until the end isn't 0." A step keeps a fit record fit, so
    /// the record and the memory are tried once.
    pub fn run(&mut self, words: &mut [u32], labels: &[u8]) -> Result<(), u8> {
        self.try_call(words, labels)?;
        let size = self.size as usize;
        let (words, labels) = (&mut words[..size], &labels[..size]);
        while self.end == end::RUNNING {
            self.advance(words, labels);
        }
        Ok(())
    }

    /// One step of a fit, running record. The slices are exactly as long as
    /// the size: "Memory beyond the size is never touched." Always inlined, so
    /// that the loop of `run` holds it without a call.
    #[inline(always)]
    fn advance(&mut self, words: &mut [u32], labels: &[u8]) -> Event {
        // "at clock = limit every step does that"
        if self.clock == self.limit {
            return self.spend(Event::Spent);
        }
        let instruction = match self.fetch(words, labels) {
            Ok(instruction) => instruction,
            Err(why) => return self.fail_fetch(why),
        };
        let finish = self.clock + self.ticks(instruction);
        if let Some((back, end_tick)) = self.open_upcall() {
            if let Some(cause) = self.closing_cause(instruction, finish > end_tick) {
                return self.close_upcall(back, end_tick, cause);
            }
        }
        if finish > self.limit {
            return self.spend(Event::Spent);
        }
        let passed = self.carry_out(instruction, finish, words, labels);
        self.clock = finish;
        if passed {
            Event::Passed
        } else {
            Event::Failed
        }
    }

    /// "A step that would finish beyond the limit only sets the clock to the
    /// limit and the end to 2"
    #[inline(never)]
    fn spend(&mut self, event: Event) -> Event {
        self.clock = self.limit;
        self.end = end::SPENT;
        event
    }

    /// "Fetch fails when the place is not below the size (why 1), the word's
    /// label doesn't flow to p (2), or the op is unknown (3), tried in that
    /// order."
    #[inline]
    fn fetch(&self, words: &[u32], labels: &[u8]) -> Result<Instruction, u8> {
        let pc = self.pc as usize;
        if pc >= words.len() || pc >= labels.len() {
            return Err(OUTSIDE);
        }
        if !Label(labels[pc]).flows_to(self.pair.pc) {
            return Err(HIDDEN);
        }
        let instruction = Instruction(words[pc]);
        if !op::KNOWN.contains(&instruction.op()) {
            return Err(UNKNOWN);
        }
        Ok(instruction)
    }

    /// "Outside an upcall a failed fetch sets the place to the error place in 1
    /// tick. If it stands there already, the run ends: end 3, clock unchanged."
    /// In an upcall it "ends it with cause 3". The one tick is always within
    /// the limit, for here the clock is below it.
    #[inline(never)]
    fn fail_fetch(&mut self, why: u8) -> Event {
        if let Some((back, end_tick)) = self.open_upcall() {
            return self.close_upcall(back, end_tick, CAUSE_BROKEN);
        }
        if self.pc == self.error_pc {
            self.end = end::STALLED;
            self.why = why;
            return Event::Stalled(why);
        }
        self.pc = self.error_pc;
        self.clock += 1;
        Event::FetchFailed(why)
    }

    /// The last column of the op table. Only op 8 looks at the registers; the
    /// others are a table of constants.
    #[inline]
    pub fn ticks(&self, i: Instruction) -> u64 {
        if i.op() == op::MULTIPLY {
            return self.multiply_ticks(i);
        }
        TICKS[usize::from(i.op())]
    }

    /// "Op 8 takes 2 + ceiling(k / 4), k being Rc's significant bits, if Lb and
    /// Lc flow to t, else 10." A later request has one formula of a count, "with 32
    /// for the count where Lb or Lc doesn't flow to t", and lets every duration
    /// remain: the first words stay here, so that a comparison shows whether they do.
    fn multiply_ticks(&self, i: Instruction) -> u64 {
        let (left, right) = (self.registers[i.b()], self.registers[i.c()]);
        let timing = self.pair.timing;
        if left.label.flows_to(timing) && right.label.flows_to(timing) {
            let significant = u32::BITS - right.value.leading_zeros();
            2 + u64::from(significant.div_ceil(4))
        } else {
            10
        }
    }

    /// "There, op 19 ends it with cause 1. A failed fetch, a failed 11, 12 or
    /// 13, or op 22 ends it with cause 3. Otherwise an op that would finish
    /// past the end tick isn't carried out, with cause 2."
    fn closing_cause(&self, i: Instruction, late: bool) -> Option<u8> {
        let broken = match i.op() {
            op::END_UPCALL => return Some(CAUSE_ENDED),
            op::HALT => true,
            op::BRANCH_EQUAL | op::BRANCH_LESS => !self.may_branch(i),
            op::JUMP => !self.may_jump(i),
            _ => false,
        };
        if broken {
            Some(CAUSE_BROKEN)
        } else if late {
            Some(CAUSE_LATE)
        } else {
            None
        }
    }

    /// "In all three the clock becomes end tick + 1, the call is closed and
    /// place and pair restored; register 15 gets the cause if t before
    /// restoring flows to its label." And: "A step that closes an upcall
    /// finishes at its end tick + 1, however long its op", which is what the
    /// limit is tried against.
    fn close_upcall(&mut self, back: Return, end_tick: u64, cause: u8) -> Event {
        let finish = end_tick + 1;
        if finish > self.limit {
            return self.spend(Event::SpentClosing(cause));
        }
        let status = &mut self.registers[STATUS];
        if self.pair.timing.flows_to(status.label) {
            status.value = u32::from(cause);
        }
        self.clock = finish;
        self.close_newest();
        self.resume(back);
        Event::Closed(cause)
    }

    /// "the call is closed": the newest call's place becomes empty.
    pub(crate) fn close_newest(&mut self) {
        match self.second {
            Call::Empty => self.first = Call::Empty,
            _ => self.second = Call::Empty,
        }
    }

    /// "place and pair restored"
    pub(crate) fn resume(&mut self, back: Return) {
        self.pc = back.pc;
        self.pair = back.pair;
    }
}
