//! Ops on two operands, Rb and Rc, in visible time: p and t are within ℓ, and an
//! operand is outside.

use super::check::state_at;
use super::seen::{is_within, State};
use super::trace::Trace;
use interpreter::instruction::Instruction;
use interpreter::machine::{end, ZERO_REGISTER};
use interpreter::{Label, Register};

/// What came of it.
#[derive(Clone, Copy, Debug, PartialEq, Eq)]
pub enum Outcome {
    Passed,
    Failed,
    /// It would write register 0, and passed by.
    OnZero,
}

/// Such an op of one machine, and where it stood before.
pub struct Done<'a> {
    pub instruction: Instruction,
    before: &'a State,
}

/// Those among these ops that one machine has done before the bound.
pub fn done<'a>(level: Label, one: &'a Trace, bound: u64, ops: &[u8]) -> Vec<Done<'a>> {
    let steps = one.states.windows(2).filter(|step| step[1].machine.clock < bound);
    let done = steps.filter_map(|step| Done::of(level, step));
    done.filter(|done| ops.contains(&done.instruction.op())).collect()
}

impl<'a> Done<'a> {
    /// The op that a step is, if it is fetched and in visible time, with a hidden
    /// operand, and no upcall closes and no clock is spent instead.
    fn of(level: Label, step: &'a [State]) -> Option<Done<'a>> {
        let (before, after) = (&step[0], &step[1]);
        let (from, to) = (&before.machine, &after.machine);
        let at = from.pc as usize;
        let done = Done { instruction: Instruction(*before.words.get(at)?), before };
        let is_fetched = before.word(at).label.flows_to(from.pair.pc);
        let is_visible = before.shows_control(level) && is_within(from.pair.timing, level);
        let is_hidden = done.ours().iter().any(|operand| !is_within(operand.label, level));
        let is_done = to.end == end::RUNNING && (from.first, from.second) == (to.first, to.second);
        (is_fetched && is_visible && is_hidden && is_done).then_some(done)
    }

    /// Rb and Rc in a state.
    fn operands(&self, state: &State) -> [Register; 2] {
        [self.instruction.b(), self.instruction.c()].map(|number| state.machine.registers[number])
    }

    /// Rb and Rc of this machine.
    pub fn ours(&self) -> [Register; 2] {
        self.operands(self.before)
    }

    /// Rb and Rc of the other machine. It is alike where it is seen, so it stands
    /// before the same op at the same tick.
    pub fn theirs(&self, other: &Trace) -> [Register; 2] {
        self.operands(state_at(other, self.before.machine.clock))
    }

    /// "join of p, Lb, Lc to La"
    fn passes(&self) -> bool {
        let machine = &self.before.machine;
        let [left, right] = self.ours();
        let source = machine.pair.pc.join(left.label).join(right.label);
        source.flows_to(machine.registers[self.instruction.a()].label)
    }

    pub fn outcome(&self) -> Outcome {
        match (self.instruction.a(), self.passes()) {
            (ZERO_REGISTER, _) => Outcome::OnZero,
            (_, true) => Outcome::Passed,
            (_, false) => Outcome::Failed,
        }
    }
}
