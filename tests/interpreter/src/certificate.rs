//! Certificates: what one run breaks first at a label ℓ, and when.
//!
//! Document 01 has none. The sentences quoted here are those of
//! `docs/NONINTERFERENCE.md`, which tells them in words. "Within" is what flows
//! to ℓ, "outside" what doesn't.

use crate::instruction::{op, Instruction};
use crate::label::Label;
use crate::machine::{end, Machine};
use crate::step::Event;

/// "the cause of the first break (0 for none)"
pub mod cause {
    pub const NO_BREAK: u64 = 0;
    pub const RELEASE: u64 = 1;
    pub const AT_LARGE: u64 = 2;
    pub const TIMED_FROM_OUTSIDE: u64 = 3;
}

/// "A certificate is the cause of the first break (0 for none), its tick, and
/// its place"
#[derive(Clone, Copy, Debug, PartialEq, Eq)]
pub struct Certificate {
    pub cause: u64,
    pub tick: u64,
    pub place: u32,
}

impl Certificate {
    /// That of a run that breaks nothing.
    pub const WHOLE: Certificate = Certificate { cause: cause::NO_BREAK, tick: 0, place: 0 };
}

/// "its place, which is 0 where the pc is hidden"
const HIDDEN: u32 = 0;

impl Machine {
    /// The certificate of the run from this record on, which is done to its
    /// end. The record's own state counts too: it is the loaded one.
    pub fn certify(
        &mut self,
        level: Label,
        words: &mut [u32],
        labels: &[u8],
    ) -> Result<Certificate, u8> {
        let mut first = self.state_break(level);
        while self.end == end::RUNNING {
            let place = self.pc;
            let tried = self.tries_release(level, words);
            let event = self.step_watched(words, labels)?;
            let released = tried && is_carried(event);
            let attempt = Certificate { cause: cause::RELEASE, tick: self.clock, place };
            first = first.or(released.then_some(attempt)).or_else(|| self.state_break(level));
        }
        Ok(first.unwrap_or(Certificate::WHOLE))
    }

    /// The word at the pc is "a relabelling (op 16) .. with p within, on a
    /// location whose label is outside; Rb is a label within, Lb flows to p, and
    /// the part of the rule that can be seen holds": p flows to Rb, and Rb to the
    /// reflection of p. "Whether the location's own label allows it is not
    /// asked." Register 0 can't be relabelled, and needs no case of its own: its
    /// label is the lowest, which is never outside.
    fn tries_release(&self, level: Label, words: &[u32]) -> bool {
        let Some(&word) = words.get(self.pc as usize) else {
            return false;
        };
        let (i, p) = (Instruction(word), self.pair.pc);
        let (location, source) = (self.registers[i.a()], self.registers[i.b()]);
        let Some(new) = Label::from_value(source.value) else {
            return false;
        };
        i.op() == op::RELABEL
            && p.flows_to(level)
            && !location.label.flows_to(level)
            && new.flows_to(level)
            && source.label.flows_to(p)
            && p.flows_to(new)
            && new.flows_to(p.reflection())
    }

    /// The break that the state is, if it is one.
    pub fn state_break(&self, level: Label) -> Option<Certificate> {
        let (tick, place) = (self.clock, self.pc);
        if self.is_at_large(level) {
            return Some(Certificate { cause: cause::AT_LARGE, tick, place: HIDDEN });
        }
        let timed = self.is_timed_from_outside(level);
        timed.then_some(Certificate { cause: cause::TIMED_FROM_OUTSIDE, tick, place })
    }

    /// "*at large*: p outside, in no upcall, while some gate leads within"
    fn is_at_large(&self, level: Label) -> bool {
        let gates = &self.gates[..self.gate_count];
        let leads_within = gates.iter().any(|gate| gate.pair.pc.flows_to(level));
        !self.pair.pc.flows_to(level) && self.open_upcall().is_none() && leads_within
    }

    /// "p within and t outside"
    fn is_timed_from_outside(&self, level: Label) -> bool {
        self.pair.pc.flows_to(level) && !self.pair.timing.flows_to(level)
    }
}

/// The op was fetched, and "neither the limit nor the end tick bars" it: it is
/// carried out, or passes by.
fn is_carried(event: Event) -> bool {
    matches!(event, Event::Passed | Event::Failed)
}
