//! The ops: the effect and the check of each row of the op table.
//!
//! The step has decided that the op is carried out and when it finishes; each
//! function here does its effect if its check passes, and tells whether it did.

use crate::instruction::{op, Instruction};
use crate::label::{may_raise, may_relabel, Label, Pair};
use crate::machine::{end, is_constant, Call, Machine, Register, Return};

/// "Op 23 gives the unsigned quotient", and for a divisor of zero "2^32 − 1".
fn quotient(dividend: u32, divisor: u32) -> u32 {
    dividend.checked_div(divisor).unwrap_or(u32::MAX)
}

/// "op 24 the remainder", and for a divisor of zero "the dividend".
fn remainder(dividend: u32, divisor: u32) -> u32 {
    dividend.checked_rem(divisor).unwrap_or(dividend)
}

impl Machine {
    /// The first three columns of the op table; true when the check passed.
    /// "The place then grows by 1 unless the op sets it. A failed check, or
    /// word Rb outside memory, only adds 1 to the place": so the pc moves on
    /// first, and the ops that set it do so afterwards.
    #[inline(always)]
    pub(crate) fn carry_out(
        &mut self,
        i: Instruction,
        finish: u64,
        words: &mut [u32],
        labels: &[u8],
    ) -> bool {
        self.pc += 1;
        match i.op() {
            op::SET => self.assign(i.a(), i.n(), self.pair.pc),
            op::ADD => self.combine(i, u32::wrapping_add),
            op::SUBTRACT => self.combine(i, u32::wrapping_sub),
            op::AND => self.combine(i, |left, right| left & right),
            op::OR => self.combine(i, |left, right| left | right),
            op::XOR => self.combine(i, |left, right| left ^ right),
            op::LESS => self.combine(i, |left, right| u32::from(left < right)),
            op::MULTIPLY => self.combine(i, u32::wrapping_mul),
            op::DIVIDE => self.combine(i, quotient),
            op::REMAINDER => self.combine(i, remainder),
            op::LOAD => self.load_word(i, words, labels),
            op::STORE => self.store_word(i, words, labels),
            op::BRANCH_EQUAL => self.branch(i, |left, right| left == right),
            op::BRANCH_LESS => self.branch(i, |left, right| left < right),
            op::JUMP => self.jump(i),
            op::READ_CLOCK => self.read_clock(i),
            op::RAISE => self.change_label(i, may_raise),
            op::RELABEL => self.change_label(i, may_relabel),
            op::SET_PAIR => self.set_pair(i),
            op::UPCALL => self.upcall(i, finish),
            op::GATE_CALL => self.gate_call(i),
            op::GATE_RETURN => self.gate_return(),
            op::HALT => self.halt(),
            // "end upcall | in an upcall": there it has closed the call before
            // it came here, so this is the failed check outside one.
            _ => false,
        }
    }

    /// "Ra := ...": the value is written if the label of all that went into it
    /// flows to La. For op 1 that is "p to La". Ops "that would write or
    /// relabel" register 0 "only take their ticks and grow the place", as a
    /// failed check does.
    fn assign(&mut self, a: usize, value: u32, source: Label) -> bool {
        let passes = !is_constant(a) && source.flows_to(self.registers[a].label);
        if passes {
            self.registers[a].value = value;
        }
        passes
    }

    /// "Ra := Rb add, subtract, and, or, xor, (1 if less unsigned, else 0) Rc |
    /// join of p, Lb, Lc to La", and "Ra := Rb × Rc mod 2^32 | same". "Here add
    /// and subtract drop the carry out of 32 bits." Ops 23 and 24 are "checked
    /// like the other arithmetic".
    fn combine(&mut self, i: Instruction, function: impl Fn(u32, u32) -> u32) -> bool {
        let (left, right) = (self.registers[i.b()], self.registers[i.c()]);
        let source = self.pair.pc.join(left.label).join(right.label);
        self.assign(i.a(), function(left.value, right.value), source)
    }

    /// "Ra := word Rb | join of p, Lb, the word's label to La"; "word Rb
    /// outside memory" fails.
    fn load_word(&mut self, i: Instruction, words: &[u32], labels: &[u8]) -> bool {
        let Register { value, label } = self.registers[i.b()];
        let address = value as usize;
        if address >= words.len() || address >= labels.len() {
            return false;
        }
        let source = self.pair.pc.join(label).join(Label(labels[address]));
        self.assign(i.a(), words[address], source)
    }

    /// "word Rb := Ra | join of p, Lb, La to the word's label"; "word Rb
    /// outside memory" fails.
    fn store_word(&mut self, i: Instruction, words: &mut [u32], labels: &[u8]) -> bool {
        let (from, to) = (self.registers[i.a()], self.registers[i.b()]);
        let address = to.value as usize;
        if address >= words.len() || address >= labels.len() {
            return false;
        }
        let source = self.pair.pc.join(to.label).join(from.label);
        let passes = source.flows_to(Label(labels[address]));
        if passes {
            words[address] = from.value;
        }
        passes
    }

    /// The check of ops 11 and 12: "join of La, Lb to p".
    pub(crate) fn may_branch(&self, i: Instruction) -> bool {
        let (left, right) = (self.registers[i.a()], self.registers[i.b()]);
        left.label.join(right.label).flows_to(self.pair.pc)
    }

    /// "to place n if Ra = Rb, Ra < Rb unsigned". A branch that isn't taken has
    /// passed its check all the same.
    fn branch(&mut self, i: Instruction, holds: impl Fn(u32, u32) -> bool) -> bool {
        let passes = self.may_branch(i);
        if passes && holds(self.registers[i.a()].value, self.registers[i.b()].value) {
            self.pc = i.n();
        }
        passes
    }

    /// The check of op 13: "Lb to p".
    pub(crate) fn may_jump(&self, i: Instruction) -> bool {
        self.registers[i.b()].label.flows_to(self.pair.pc)
    }

    /// "to place Rb"
    fn jump(&mut self, i: Instruction) -> bool {
        let passes = self.may_jump(i);
        if passes {
            self.pc = self.registers[i.b()].value;
        }
        passes
    }

    /// "Ra := clock before the step, mod 2^32 | join of p, t to La"
    fn read_clock(&mut self, i: Instruction) -> bool {
        let source = self.pair.pc.join(self.pair.timing);
        self.assign(i.a(), self.clock as u32, source)
    }

    /// "La raised, relabelled to Rb | its rule; Lb to p". "A label read from a
    /// register must be at most 255." Register 0 is never relabelled.
    #[inline(never)]
    fn change_label(&mut self, i: Instruction, rule: fn(Label, Label, Label) -> bool) -> bool {
        let Some(to) = Label::from_value(self.registers[i.b()].value) else {
            return false;
        };
        let from = self.registers[i.a()].label;
        let passes = !is_constant(i.a()) && rule(from, to, self.pair.pc) && self.may_jump(i);
        if passes {
            self.registers[i.a()].label = to;
        }
        passes
    }

    /// The pair that Rb and Rc hold. "A label read from a register must be at
    /// most 255."
    fn pair_in_registers(&self, i: Instruction) -> Option<Pair> {
        let pc = Label::from_value(self.registers[i.b()].value)?;
        let timing = Label::from_value(self.registers[i.c()].value)?;
        Some(Pair { pc, timing })
    }

    /// "p, t := Rb, Rc | p, t flow to the new ones; valid; Lb, Lc to p"
    #[inline(never)]
    fn set_pair(&mut self, i: Instruction) -> bool {
        let Some(new) = self.pair_in_registers(i) else {
            return false;
        };
        let passes = self.pair.flows_to(new)
            && new.is_valid()
            && self.registers[i.b()].label.flows_to(self.pair.pc)
            && self.registers[i.c()].label.flows_to(self.pair.pc);
        if passes {
            self.pair = new;
        }
        passes
    }

    /// "**Upcall**: newest call not an upcall; join of p and t flows to new p
    /// (Rb), new p to new t (Rc); valid; La, Lb, Lc, Ld flow to p."
    fn upcall_pair(&self, i: Instruction) -> Option<Pair> {
        let new = self.pair_in_registers(i)?;
        let old = self.pair;
        let operands = [i.a(), i.b(), i.c(), i.d()];
        let passes = self.open_upcall().is_none()
            && old.pc.join(old.timing).flows_to(new.pc)
            && new.is_valid()
            && operands.iter().all(|&r| self.registers[r].label.flows_to(old.pc));
        passes.then_some(new)
    }

    /// "It keeps return place Rd and the pair; end tick = clock after the op +
    /// Ra." The upcall itself goes on at the next word, under the new pair.
    #[inline(never)]
    fn upcall(&mut self, i: Instruction, finish: u64) -> bool {
        let Some(new) = self.upcall_pair(i) else {
            return false;
        };
        let back = Return { pc: self.registers[i.d()].value, pair: self.pair };
        let end_tick = finish + u64::from(self.registers[i.a()].value);
        let call = Call::Upcall(back, end_tick);
        match self.first {
            Call::Empty => self.first = call,
            _ => self.second = call,
        }
        self.pair = new;
        true
    }

    /// "**Gate call**: no open call; gate number exists; .. both its labels flow
    /// to p; Lb flows to p. It keeps place + 1 and the pair, then takes the
    /// gate's." The pc has moved on already, so it is the place + 1 to keep. "Take
    /// the test of the pair out of the step": the gates of a fit record have
    /// valid ones.
    #[inline(never)]
    fn gate_call(&mut self, i: Instruction) -> bool {
        let number = self.registers[i.b()];
        let gates = &self.gates[..self.gate_count];
        let Some(&gate) = gates.get(number.value as usize) else {
            return false;
        };
        let passes = self.first.is_empty()
            && gate.pair.pc.flows_to(self.pair.pc)
            && gate.pair.timing.flows_to(self.pair.pc)
            && number.label.flows_to(self.pair.pc);
        if passes {
            self.first = Call::Gate(Return { pc: self.pc, pair: self.pair });
            self.pc = gate.pc;
            self.pair = gate.pair;
        }
        passes
    }

    /// "**Gate return**: newest is a gate call; join of p, t flows to the meet
    /// of the kept pair, which is restored with the place."
    #[inline(never)]
    fn gate_return(&mut self) -> bool {
        let Call::Gate(back) = self.newest() else {
            return false;
        };
        let current = self.pair.pc.join(self.pair.timing);
        let passes = current.flows_to(back.pair.pc.meet(back.pair.timing));
        if passes {
            self.close_newest();
            self.resume(back);
        }
        passes
    }

    /// "halt, place kept | not in an upcall": in an upcall op 22 has closed the
    /// call before it came here. The pc has moved on already and is put back.
    fn halt(&mut self) -> bool {
        self.pc -= 1;
        self.end = end::HALTED;
        true
    }
}
