//! A sequence of calls on one machine, and the states that its steps leave.

use super::image::Image;
use super::seen::State;
use crate::buffers::Lent;
use crate::calls::Calls;
use crate::layout::{read, SPAN};
use crate::tally::Tally;
use interpreter::generator::random::Random;
use interpreter::machine::end;
use interpreter::Machine;
use std::ops::Range;

/// The loaded state, then "one state for each step done".
pub struct Trace {
    pub states: Vec<State>,
}

impl Trace {
    pub fn last(&self) -> &State {
        self.states.last().expect("a trace has the loaded state")
    }

    /// "Tick k is reached when the sequence's last clock is above k or its last
    /// end isn't 0." Gives the first tick that is not reached, if there is one.
    pub fn unreached(&self) -> Option<u64> {
        let machine = &self.last().machine;
        (machine.end == end::RUNNING).then_some(machine.clock)
    }
}

/// A machine in its own lent memory, and its trace so far.
struct Sequence<'a> {
    calls: &'a dyn Calls,
    size: usize,
    lent: Lent,
    trace: Trace,
}

/// "A sequence for the third demand starts with the record and memory of an
/// accepted load. Its calls are step and run. Each takes the record that the
/// last one returned and the whole memory as it then stands, or too short a part
/// of it." A run to a tick is a call like these. What goes wrong on the way is
/// told.
pub fn trace(
    calls: &dyn Calls,
    random: &mut Random,
    tally: &mut Tally,
    image: &Image,
    size: usize,
) -> Result<Trace, String> {
    let mut sequence = Sequence::start(calls, random, image, size)?;
    let count = random.pick(&[5, 20, 60, 400]);
    for _ in 0..random.between(0, count) {
        match random.below(100) {
            0..=15 => sequence.refused(random, tally)?,
            16 => sequence.run(tally)?,
            17..=19 => sequence.run_to(random, tally)?,
            _ => sequence.step()?,
        }
    }
    if random.chance(75) {
        sequence.run(tally)?;
    }
    Ok(sequence.trace)
}

impl<'a> Sequence<'a> {
    /// Memory of any lengths, longer than the size, with what came before in it.
    fn start(
        calls: &'a dyn Calls,
        random: &mut Random,
        image: &Image,
        size: usize,
    ) -> Result<Sequence<'a>, String> {
        let words: Vec<u32> = (0..size + random.index(9)).map(|_| random.bits()).collect();
        let labels: Vec<u8> = (0..size + random.index(9)).map(|_| random.bits() as u8).collect();
        let mut lent = Lent::of(random, &[0; SPAN], &words, &labels);
        let answer = image.load(calls, &mut lent);
        if answer != 0 {
            return Err(format!("load answers {answer}"));
        }
        let trace = Trace { states: Vec::new() };
        let mut sequence = Sequence { calls, size, lent, trace };
        sequence.push()?;
        Ok(sequence)
    }

    /// The state as it stands.
    fn state(&self) -> Result<State, String> {
        let machine = read(self.lent.record.get()).ok_or("the buffer holds no record")?;
        let words = self.lent.words.get()[..self.size].to_vec();
        let labels = self.lent.labels.get()[..self.size].to_vec();
        Ok(State { machine, words, labels })
    }

    fn push(&mut self) -> Result<(), String> {
        let state = self.state()?;
        self.trace.states.push(state);
        Ok(())
    }

    fn step(&mut self) -> Result<(), String> {
        match self.lent.step(self.calls) {
            0 => self.push(),
            answer => Err(format!("step answers {answer}")),
        }
    }

    /// "A run counts as the steps that it does": they are done one by one, and
    /// then the run, from the same state, must leave what they left.
    fn run(&mut self, tally: &mut Tally) -> Result<(), String> {
        let mut whole = self.lent.clone();
        while self.trace.last().machine.end == end::RUNNING {
            self.step()?;
        }
        let answer = whole.run(self.calls);
        if answer != 0 || whole != self.lent {
            return Err(format!("run answers {answer} and leaves another state than its steps"));
        }
        tally.count("calls of run");
        Ok(())
    }

    /// A run to a tick too counts as the steps that it does: all that finish at or
    /// before it. A step is tried, and taken back where it finishes later.
    fn run_to(&mut self, random: &mut Random, tally: &mut Tally) -> Result<(), String> {
        let tick = self.choose_tick(random);
        let mut whole = self.lent.clone();
        while self.trace.last().machine.end == end::RUNNING {
            let before = self.lent.clone();
            self.step()?;
            if self.trace.last().machine.clock > tick {
                self.lent = before;
                self.trace.states.pop();
                tally.count("calls of run to a tick, with a step left out");
                break;
            }
        }
        let answer = whole.run_to(self.calls, tick);
        if answer != 0 || whole != self.lent {
            let what = "and leaves another state than its steps";
            return Err(format!("run to tick {tick} answers {answer} {what}"));
        }
        tally.count("calls of run to a tick");
        Ok(())
    }

    /// A tick around the clock, mostly, or at the limit, or beyond.
    fn choose_tick(&self, random: &mut Random) -> u64 {
        let Machine { clock, limit, .. } = self.trace.last().machine;
        match random.below(20) {
            0 => limit,
            1 => limit + 1,
            2 => u64::MAX,
            3 => clock.saturating_sub(1),
            _ => clock + u64::from(random.below(16)),
        }
    }

    /// "a refused call as none": too short a part of the memory, from anywhere
    /// in it.
    fn refused(&mut self, random: &mut Random, tally: &mut Tally) -> Result<(), String> {
        let mut lent = self.lent.clone();
        let which = random.below(3);
        if which != 0 {
            lent.words.lend_part(short_part(random, self.size));
        }
        if which != 1 {
            lent.labels.lend_part(short_part(random, self.size));
        }
        let before = lent.clone();
        let answer = match random.below(3) {
            0 => lent.step(self.calls),
            1 => lent.run(self.calls),
            _ => lent.run_to(self.calls, self.choose_tick(random)),
        };
        if answer != 6 || lent != before {
            return Err(format!("a call in short memory answers {answer}, or changes something"));
        }
        tally.count("calls refused");
        Ok(())
    }
}

/// A part of the memory that is shorter than the size.
fn short_part(random: &mut Random, size: usize) -> Range<usize> {
    let length = if random.chance(50) { size - 1 } else { random.index(size) };
    let start = random.index(size - length + 1);
    start..start + length
}
