//! Multiplies, op 8: what decides how long they take, by which they are counted and
//! chosen. "Op 8 takes 2 + ceiling(k / 4), k being Rc's significant bits, if Lb and
//! Lc flow to t, else 10": every k must come up where both flow, and every way in
//! which they don't.

use super::on_zero::is_on_zero;
use super::random::Random;
use super::words::with_operands;
use crate::instruction::{op, Instruction};
use crate::machine::{Machine, Register};
use crate::step::Event;
use std::fmt;

/// So many of a hundred multiplies that are chosen by what decides their ticks
/// shall have a hidden factor.
const HIDDEN_CHANCE: u32 = 30;

/// What decides the ticks of a multiply.
#[derive(Clone, Copy, Debug, PartialEq, Eq)]
pub enum Timed {
    /// Lb and Lc flow to t, and Rc has so many significant bits.
    ByCount(u32),
    /// Of Lb and Lc only Lb flows to t.
    OnlyLeftFlows,
    /// Only Lc does.
    OnlyRightFlows,
    NeitherFlows,
}

/// Every way in which they don't both flow.
const HIDDEN: [Timed; 3] = [Timed::OnlyLeftFlows, Timed::OnlyRightFlows, Timed::NeitherFlows];

/// The counts of significant bits that there are: 0 to 32.
const COUNTS: usize = u32::BITS as usize + 1;

/// All that can decide.
const KINDS: usize = COUNTS + HIDDEN.len();

impl Timed {
    fn of(machine: &Machine, i: Instruction) -> Timed {
        let [left, right] = [i.b(), i.c()].map(|number| machine.registers[number]);
        let flows = [left, right].map(|factor| factor.label.flows_to(machine.pair.timing));
        match flows {
            [true, true] => Timed::ByCount(significant_bits(right)),
            [true, false] => Timed::OnlyLeftFlows,
            [false, true] => Timed::OnlyRightFlows,
            [false, false] => Timed::NeitherFlows,
        }
    }

    /// All of them, in the order in which they are shown.
    fn all() -> impl Iterator<Item = Timed> {
        (0..=u32::BITS).map(Timed::ByCount).chain(HIDDEN)
    }

    /// Its index in that order.
    fn index(self) -> usize {
        match self {
            Timed::ByCount(count) => count as usize,
            Timed::OnlyLeftFlows => COUNTS,
            Timed::OnlyRightFlows => COUNTS + 1,
            Timed::NeitherFlows => COUNTS + 2,
        }
    }

    /// The word with factors by which this decides, as far as there are any.
    pub fn with_factors(self, random: &mut Random, machine: &Machine, word: u32) -> u32 {
        let flows = |factor: Register| factor.label.flows_to(machine.pair.timing);
        let left_flows = matches!(self, Timed::ByCount(_) | Timed::OnlyLeftFlows);
        let right_flows = matches!(self, Timed::ByCount(_) | Timed::OnlyRightFlows);
        let has_count = |factor| match self {
            Timed::ByCount(count) => significant_bits(factor) == count,
            _ => true,
        };
        let is_left = |factor| flows(factor) == left_flows;
        let is_right = |factor| flows(factor) == right_flows && has_count(factor);
        with_operands(random, machine, word, is_left, is_right)
    }
}

impl fmt::Display for Timed {
    fn fmt(&self, out: &mut fmt::Formatter) -> fmt::Result {
        match self {
            Timed::ByCount(count) => write!(out, "Lb and Lc flow to t, count {count}"),
            Timed::OnlyLeftFlows => write!(out, "only Lb flows to t"),
            Timed::OnlyRightFlows => write!(out, "only Lc flows to t"),
            Timed::NeitherFlows => write!(out, "neither Lb nor Lc flows to t"),
        }
    }
}

/// In how many images a multiply into another register than 0 was met: by what
/// decided its ticks, and 0 for a failed or 1 for a passed check.
pub struct Multiplies {
    met: [[u64; 2]; KINDS],
}

impl Default for Multiplies {
    fn default() -> Multiplies {
        Multiplies::new()
    }
}

impl Multiplies {
    pub fn new() -> Multiplies {
        Multiplies { met: [[0; 2]; KINDS] }
    }

    /// Counts a multiply that was carried out or passed by for its labels.
    pub fn count(&mut self, before: &Machine, i: Instruction, event: Event) {
        let passed = match event {
            Event::Passed => true,
            Event::Failed => false,
            _ => return,
        };
        if i.op() == op::MULTIPLY && !is_on_zero(i) {
            self.met[Timed::of(before, i).index()][usize::from(passed)] += 1;
        }
    }

    /// Adds what one image has met: each kind once, however often it came up.
    pub fn add_image(&mut self, seen: &Multiplies) {
        let sums = self.met.iter_mut().flatten();
        sums.zip(seen.met.iter().flatten()).for_each(|(sum, count)| *sum += (*count).min(1));
    }

    fn met(&self, timed: Timed, passed: bool) -> u64 {
        self.met[timed.index()][usize::from(passed)]
    }

    /// What shall decide the ticks of a multiply that is to pass or to fail: what
    /// was met the least of what the registers allow, mostly a count.
    pub fn wanted(&self, random: &mut Random, machine: &Machine, passed: bool) -> Timed {
        let mut choices = HIDDEN.to_vec();
        if !random.chance(HIDDEN_CHANCE) {
            let timing = machine.pair.timing;
            let seen = machine.registers.iter().filter(|factor| factor.label.flows_to(timing));
            choices = seen.map(|factor| Timed::ByCount(significant_bits(*factor))).collect();
        }
        // Of equals the first one counts, so that the order must not be always the same.
        let first = random.index(choices.len());
        choices.rotate_left(first);
        let rarest = choices.into_iter().min_by_key(|&timed| self.met(timed, passed));
        rarest.expect("register 0 is seen by every label")
    }

    /// The kinds that no image has met yet.
    pub fn unmet(&self) -> impl Iterator<Item = String> + '_ {
        let kinds = Timed::all().flat_map(|timed| [(timed, false), (timed, true)]);
        let unmet = kinds.filter(|&(timed, passed)| self.met(timed, passed) == 0);
        unmet.map(|(timed, passed)| format!("op 8, {timed}, passed: {passed}"))
    }
}

impl fmt::Display for Multiplies {
    fn fmt(&self, out: &mut fmt::Formatter) -> fmt::Result {
        writeln!(out, "images in which op 8 passed/failed where")?;
        let row = |timed: Timed| {
            format!("{timed}: {}/{}\n", self.met(timed, true), self.met(timed, false))
        };
        write!(out, "{}", Timed::all().map(row).collect::<String>())
    }
}

fn significant_bits(factor: Register) -> u32 {
    u32::BITS - factor.value.leading_zeros()
}

/// A factor: every count of significant bits is as likely as any other, and the
/// smallest and the largest number of a count as all between them.
pub fn factor(random: &mut Random) -> u32 {
    let count = random.below(COUNTS as u32);
    let Some(top) = count.checked_sub(1) else {
        return 0;
    };
    let smallest = 1 << top;
    let below = match random.below(3) {
        0 => 0,
        1 => smallest - 1,
        _ => random.bits() & (smallest - 1),
    };
    smallest | below
}
