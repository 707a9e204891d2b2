//! Watching a run: each step is sorted into the kinds of the census.

use super::census::{context, Census, OnZero, Undone, CONTEXTS};
use super::division::{divides, Division};
use super::on_zero::{is_on_zero, is_stopped_alone, unhurried};
use crate::instruction::{op, Instruction};
use crate::label::Label;
use crate::load::load;
use crate::machine::{end, Machine, MAX_SIZE, ZERO_REGISTER};
use crate::step::Event;

/// A run is watched for so many steps; the rest of a long loop shows nothing
/// new.
const WATCHED_STEPS: u32 = 20_000;

/// A loaded machine with its memory and the marks of what it has rewritten.
struct Watched {
    machine: Machine,
    words: Vec<u32>,
    labels: Vec<u8>,
    rewritten: Vec<bool>,
}

/// A step, seen from before it is taken.
struct Moment {
    before: Machine,
    /// The op, where the fetch succeeds, and the clock at which it would finish.
    op: Option<(Instruction, u64)>,
    /// Why the fetch fails, where it does, else 0.
    why: u8,
    /// Whether the op's check fails, whatever the limit and the end tick.
    fails: bool,
    /// Whether the op would change register 0, were it any other register.
    stopped_alone: bool,
    label: Option<Label>,
    rewritten: bool,
}

/// Loads and runs an image and counts what comes up.
pub fn watch(census: &mut Census, text: &[u8]) {
    let mut words = vec![0; MAX_SIZE as usize];
    let mut labels = vec![0; MAX_SIZE as usize];
    let machine = match load(text, &mut words, &mut labels) {
        Ok(machine) => machine,
        Err(refusal) => return census.note(&format!("refusal {}", refusal.number)),
    };
    let size = machine.size as usize;
    words.truncate(size);
    labels.truncate(size);
    let mut watched = Watched { machine, words, labels, rewritten: vec![false; size] };
    let mut steps = 0;
    while watched.machine.end == end::RUNNING && steps < WATCHED_STEPS {
        watch_step(census, &mut watched);
        steps += 1;
    }
    let Watched { machine, words, labels, .. } = &mut watched;
    machine.run(words, labels).expect("a loaded record stays fit");
    let Machine { end, why, .. } = *machine;
    census.note(&format!("end {end} with {} open", CONTEXTS[context(machine)]));
    census.note_if(end == end::STALLED, &format!("end 3, why {why}"));
}

fn watch_step(census: &mut Census, watched: &mut Watched) {
    let moment = watched.moment();
    let Watched { machine, words, labels, .. } = watched;
    let event = machine.step_watched(words, labels).expect("a loaded record stays fit");
    moment.count_event(census, event, &watched.machine);
    moment.count_op(census, event);
    moment.count_undone(census, event);
    moment.count_on_zero(census, event);
    moment.count_lateness(census, event);
    moment.count_operands(census);
    moment.count_gate_call(census, event);
    moment.count_division(census, event);
    moment.count_multiply(census, event);
    moment.count_zero_sources(census, event);
    let stored = moment.count_passed(census, event, &watched.machine);
    if let Some(address) = stored {
        watched.rewritten[address] = true;
    }
}

impl Watched {
    fn moment(&self) -> Moment {
        let before = self.machine.clone();
        let pc = before.pc as usize;
        let label = self.labels.get(pc).map(|&label| Label(label));
        let instruction = self.words.get(pc).map(|&word| Instruction(word));
        let why = match (instruction, label) {
            (Some(_), Some(label)) if !label.flows_to(before.pair.pc) => 2,
            (Some(i), _) if !op::KNOWN.contains(&i.op()) => 3,
            (Some(_), _) => 0,
            _ => 1,
        };
        let fetched = instruction.filter(|_| why == 0);
        let op = fetched.map(|i| (i, before.clock + before.ticks(i)));
        let rewritten = self.rewritten.get(pc) == Some(&true);
        let stopped_alone =
            fetched.is_some_and(is_on_zero) && is_stopped_alone(&before, &self.words, &self.labels);
        let fails = self.would_fail();
        Moment { before, op, why, fails, stopped_alone, label, rewritten }
    }

    /// Tries the op on a copy with all the time in the world.
    fn would_fail(&self) -> bool {
        let mut copy = unhurried(&self.machine);
        let event = copy.step_watched(&mut self.words.clone(), &self.labels);
        matches!(event, Ok(Event::Failed))
    }
}

impl Moment {
    fn shape(&self) -> &'static str {
        CONTEXTS[context(&self.before)]
    }

    /// Counts fetches, closes and ends.
    fn count_event(&self, census: &mut Census, event: Event, after: &Machine) {
        let Machine { clock, limit, pc, error_pc, .. } = self.before;
        let shape = self.shape();
        match event {
            Event::FetchFailed(why) | Event::Stalled(why) => {
                census.note(&format!("fetch fails with {shape} open, why {why}"));
                let edge = after.end == end::STALLED && clock + 1 == limit;
                census.note_if(edge, "stall one tick before the limit");
            }
            Event::Spent if clock == limit => {
                census.note(&format!("spent at clock = limit with {shape} open"));
                let stalls = self.why > 0 && pc == error_pc && context(&self.before) < 2;
                census.note_if(stalls, "spent at clock = limit where a fetch would stall");
            }
            Event::Spent => census.note(&format!("limit bars an op with {shape} open")),
            Event::SpentClosing(cause) => {
                census.note(&format!("limit bars a close, cause {cause}"));
                let end_tick = self.before.open_upcall().map(|(_, end_tick)| end_tick);
                census.note_if(end_tick == Some(limit), "close is one tick beyond the limit");
            }
            Event::Closed(cause) => {
                census.note(&format!("{shape} closed, cause {cause}"));
                census.note_if(after.clock == limit, "close finishes at the limit");
                let written = self.before.pair.timing.flows_to(after.registers[15].label);
                census.note(if written {
                    "cause written to register 15"
                } else {
                    "cause not written to register 15"
                });
            }
            Event::Passed | Event::Failed => {
                census.note_if(after.clock == limit, "op finishes at the limit");
                let halted = after.end == end::HALTED && after.clock == limit;
                census.note_if(halted, "halt finishes at the limit");
            }
            Event::Ended => {}
        }
    }

    /// Counts an op as passed or failed in its context. An op that closes an
    /// upcall with cause 3 has failed; op 19, closing with cause 1, has passed. An
    /// op that passes by at register 0 is counted apart.
    fn count_op(&self, census: &mut Census, event: Event) {
        if let (Event::Closed(3), true) = (event, self.why > 0) {
            census.note(&format!("cause 3 by a failed fetch, why {}", self.why));
            let at_error_pc = self.before.pc == self.before.error_pc;
            census.note_if(at_error_pc, "cause 3 by a failed fetch at the error pc");
        }
        let Some((instruction, _)) = self.op.filter(|(i, _)| !is_on_zero(*i)) else {
            return;
        };
        let passed = match event {
            Event::Passed | Event::Closed(1) => true,
            Event::Failed | Event::Closed(3) => false,
            _ => return,
        };
        let (number, shape) = (instruction.op(), context(&self.before));
        census.count_op(shape, number, passed);
        census.note_if(event == Event::Closed(3), &format!("cause 3 by op {number}"));
        let kept_in = number == op::GATE_RETURN && !passed && shape == 1;
        census.note_if(kept_in, "gate return fails: labels, with a gate call on top");
    }

    /// Counts an op that is not carried out.
    fn count_undone(&self, census: &mut Census, event: Event) {
        let Some((instruction, finish)) = self.op else {
            return;
        };
        match event {
            Event::Closed(2) => census.count_undone(instruction.op(), Undone::Late),
            Event::Spent if self.before.clock < self.before.limit => {
                census.count_undone(instruction.op(), Undone::BeyondLimit);
                let by_one = finish == self.before.limit + 1;
                census.note_if(by_one, "op would finish one tick beyond the limit");
            }
            _ => {}
        }
    }

    /// Counts an op that would write or relabel register 0.
    fn count_on_zero(&self, census: &mut Census, event: Event) {
        let Some((i, _)) = self.op.filter(|(i, _)| is_on_zero(*i)) else {
            return;
        };
        match event {
            Event::Failed => {
                census.count_on_zero(i.op(), OnZero::PassedBy(context(&self.before)));
                if self.stopped_alone {
                    census.count_on_zero(i.op(), OnZero::StoppedAlone);
                }
            }
            Event::Closed(2) => census.count_on_zero(i.op(), OnZero::Undone(Undone::Late)),
            Event::Spent if self.before.clock < self.before.limit => {
                census.count_on_zero(i.op(), OnZero::Undone(Undone::BeyondLimit));
            }
            Event::Passed => census.note("an op on register 0 passed"),
            _ => {}
        }
    }

    /// Counts an op that passes with register 0 among those that it reads.
    fn count_zero_sources(&self, census: &mut Census, event: Event) {
        let Some((i, _)) = self.op.filter(|_| event == Event::Passed) else {
            return;
        };
        let [a, b, c, d] = [i.a(), i.b(), i.c(), i.d()].map(|register| register == ZERO_REGISTER);
        let uses: &[(bool, &str)] = match i.op() {
            op::ADD..=op::MULTIPLY => &[(b || c, "ops 2 to 8 with register 0")],
            op::LOAD => &[(b, "op 9 with the address in register 0")],
            op::STORE => {
                &[(a, "op 10 stores register 0"), (b, "op 10 with the address in register 0")]
            }
            op::BRANCH_EQUAL => &[(a || b, "op 11 with register 0")],
            op::BRANCH_LESS => &[(a || b, "op 12 with register 0")],
            op::JUMP => &[(b, "op 13 with register 0")],
            op::RAISE | op::RELABEL => &[(b, "ops 15 and 16 with the label in register 0")],
            op::SET_PAIR => {
                &[(b, "op 17 with register 0 for p"), (c, "op 17 with register 0 for t")]
            }
            op::UPCALL => &[
                (a, "op 18 with register 0 for its ticks"),
                (b, "op 18 with register 0 for p"),
                (c, "op 18 with register 0 for t"),
                (d, "op 18 with register 0 for its return place"),
            ],
            op::GATE_CALL => &[(b, "op 20 with register 0 for gate 0")],
            _ => &[],
        };
        uses.iter().for_each(|&(used, name)| census.note_if(used, name));
    }

    /// Counts how an op in an upcall stands to the end tick.
    fn count_lateness(&self, census: &mut Census, event: Event) {
        let Some(((_, finish), (_, end_tick))) = self.op.zip(self.before.open_upcall()) else {
            return;
        };
        let Machine { clock, limit, .. } = self.before;
        let done = matches!(event, Event::Passed | Event::Failed);
        census.note_if(done && finish == end_tick, "op finishes at the end tick");
        let late = event == Event::Closed(2);
        let by_one = late && finish == end_tick + 1;
        census.note_if(by_one, "op would finish one tick past the end tick");
        census.note_if(late && self.fails, "late op whose check would fail too");
        census.note_if(late && finish > limit, "late op beyond the limit closes within it");
        let at_end = clock == end_tick;
        census.note_if(event == Event::Closed(1) && at_end, "op 19 at clock = end tick");
        census.note_if(event == Event::Closed(3) && at_end, "cause 3 by an op that is late too");
    }

    /// Counts what the registers hold before an op, where it makes a difference.
    fn count_operands(&self, census: &mut Census) {
        let Some((i, _)) = self.op else {
            return;
        };
        let registers = &self.before.registers;
        if let op::RAISE..=op::UPCALL = i.op() {
            let takes_c = i.op() >= op::SET_PAIR;
            let large = registers[i.b()].value > 255 || takes_c && registers[i.c()].value > 255;
            census.note_if(large, "ops 15 to 18 with a value above 255");
        }
    }

    /// Counts what a division meets.
    fn count_division(&self, census: &mut Census, event: Event) {
        let Some((instruction, finish)) = self.op.filter(|(i, _)| divides(i.op())) else {
            return;
        };
        let division = Division { before: &self.before, instruction, finish };
        division.count(census, event);
    }

    /// Counts what decides the ticks of a multiply.
    fn count_multiply(&self, census: &mut Census, event: Event) {
        if let Some((instruction, _)) = self.op {
            census.multiplies.count(&self.before, instruction, event);
        }
    }

    /// Counts a gate call that fails for one reason alone. A gate's pc label flows
    /// to its timing label, so that where the one is too high both are.
    fn count_gate_call(&self, census: &mut Census, event: Event) {
        let failed = self.op.filter(|(i, _)| i.op() == op::GATE_CALL && event == Event::Failed);
        let Some((i, _)) = failed else {
            return;
        };
        let Machine { pair, gates, gate_count, registers, first, .. } = &self.before;
        let number = registers[i.b()];
        let gate = gates[..*gate_count].get(number.value as usize).map(|gate| gate.pair);
        let is_above = |label: Label| !label.flows_to(pair.pc);
        let both = gate.is_some_and(|gate| is_above(gate.pc));
        let reasons = [
            (!first.is_empty(), "a call is open"),
            (gate.is_none(), "no such gate"),
            (!both && gate.is_some_and(|gate| is_above(gate.timing)), "the gate's timing label"),
            (both, "both labels of the gate"),
            (is_above(number.label), "Lb"),
        ];
        let mut holding = reasons.iter().filter(|(holds, _)| *holds);
        if let (Some((_, name)), None) = (holding.next(), holding.next()) {
            census.note(&format!("gate call fails by one test alone: {name}"));
        }
    }

    /// Counts where a carried-out op comes from and which upcall it opens.
    /// Gives the address that a store has rewritten.
    fn count_passed(&self, census: &mut Census, event: Event, after: &Machine) -> Option<usize> {
        let (i, _) = self.op?;
        if !matches!(event, Event::Passed | Event::Failed) {
            return None;
        }
        census.note_if(self.rewritten, "op from a word that the program rewrote");
        let back = self.before.open_upcall().map(|(back, _)| back);
        let hidden =
            back.zip(self.label).is_some_and(|(back, label)| !label.flows_to(back.pair.pc));
        census.note_if(hidden, "op from a word that the upcall's caller can't fetch");
        match (i.op(), event, after.open_upcall()) {
            (op::UPCALL, Event::Passed, Some((_, end_tick))) => {
                census.note_if(end_tick == after.clock, "upcall with no time (Ra = 0)");
                census.note_if(end_tick >= 1 << 32, "upcall whose end tick is beyond 2^32");
                None
            }
            (op::STORE, Event::Passed, _) => Some(self.before.registers[i.b()].value as usize),
            _ => None,
        }
    }
}
