//! Composing a valid image while running it.
//!
//! The machine is started with an empty program. Whenever it comes to a word
//! that is still undecided, the word is chosen there and then, with the
//! registers and the labels known: an op is wanted that passes or fails, the
//! rarer so far the likelier, and words are tried until one does. What comes
//! out is the image from which the machine would have run the same way.

use super::census::{context, is_possible, Census, OnZero, Undone};
use super::division::{divides, has_time, Edge};
use super::labels;
use super::on_zero::{is_on_zero, is_stopped_alone, with_a, writes};
use super::random::Random;
use super::start::{start_draft, LONGEST_UPCALL};
use super::words::{with_operands, word_of};
use crate::draft::Draft;
use crate::instruction::{op, Instruction};
use crate::label::{Label, Pair};
use crate::machine::{end, Machine, Register, MAX_LIMIT, ZERO_REGISTER};
use crate::step::{Event, DIVISION_TICKS};

/// So many words are tried for an op that is wanted to pass or to fail.
const TRIES: u32 = 60;

/// In so many of a hundred words, and in so many of an upcall, an op would write
/// or relabel register 0; so many are tried for one that nothing but register 0
/// stops.
const ON_ZERO_CHANCE: u32 = 8;
const ON_ZERO_CHANCE_IN_UPCALLS: u32 = 18;
const ON_ZERO_TRIES: u32 = 6;

/// Where a division would be late in an upcall, it is a choice like others in so
/// many of a hundred words only: it would close most upcalls before much is done.
const LATE_DIVISION_CHANCE: u32 = 10;

/// So many of a hundred divisions shall meet an edge.
const EDGE_DIVISION_CHANCE: u32 = 75;

/// So many of a hundred multiplies are chosen by what decides their ticks, the
/// rarer so far the likelier.
const TIMED_MULTIPLY_CHANCE: u32 = 80;

/// So many of a hundred gate calls that shall fail name a gate, and so many of
/// these by a register that is hidden from p, where there is one.
const NAMED_GATE_CHANCE: u32 = 70;
const HIDDEN_GATE_CHANCE: u32 = 30;

/// A program being written and run at once.
struct Writer {
    draft: Draft,
    machine: Machine,
    words: Vec<u32>,
    labels: Vec<u8>,
    /// Words that are chosen, or whose content or label has mattered already.
    decided: Vec<bool>,
    /// Whether the error pc has mattered already.
    error_pc_decided: bool,
    /// When each step finished, apart for those in upcalls, for those that closed
    /// one, and for those that passed by at register 0.
    finishes: Vec<u64>,
    finishes_in_upcalls: Vec<u64>,
    finishes_of_closes: Vec<u64>,
    finishes_on_zero: Vec<u64>,
}

/// A valid image, written as it runs and then given a limit of interest.
pub fn compose(random: &mut Random, census: &Census) -> Draft {
    let mut writer = Writer::start(start_draft(random));
    while writer.machine.end == end::RUNNING {
        writer.decide(random, census);
        writer.step();
    }
    writer.choose_limit(random);
    writer.draft
}

impl Writer {
    fn start(draft: Draft) -> Writer {
        let (machine, words, labels) = draft.loaded();
        let decided = vec![false; words.len()];
        Writer {
            draft,
            machine,
            words,
            labels,
            decided,
            error_pc_decided: false,
            finishes: Vec::new(),
            finishes_in_upcalls: Vec::new(),
            finishes_of_closes: Vec::new(),
            finishes_on_zero: Vec::new(),
        }
    }

    /// Chooses the word at the pc, if it is in memory and undecided.
    fn decide(&mut self, random: &mut Random, census: &Census) {
        let pc = self.machine.pc as usize;
        match self.decided.get(pc) {
            Some(true) => return,
            None => return self.move_error_pc(random),
            Some(false) => self.decided[pc] = true,
        }
        let pc_label = self.machine.pair.pc;
        let failing = self.failing_chance();
        let (hidden, unknown) = (random.chance(failing), random.chance(failing));
        if hidden || unknown {
            self.move_error_pc(random);
        }
        let label = match random.below(10) {
            _ if hidden => labels::not_below(random, pc_label),
            0..=3 => Label::LOWEST,
            4..=6 => pc_label,
            _ => labels::below(random, pc_label),
        };
        self.labels[pc] = label.0;
        let word = if unknown {
            // An unknown op: 0, or above the last; 151 is 23 with one more bit.
            random.pick(&[0, 25, 26, 128, 151, 255]) << 24 | random.bits() >> 8
        } else if random.chance(self.on_zero_chance()) {
            self.word_on_zero(random, census)
        } else {
            self.wanted_word(random, census)
        };
        self.words[pc] = word;
        self.draft.word(pc, label.0, word);
    }

    /// In how many of a hundred words the fetch shall fail. Outside an upcall
    /// that leads to the error pc, so there most fail while it is new.
    fn failing_chance(&self) -> u32 {
        let error_is_new = self.decided.get(self.machine.error_pc as usize) == Some(&false);
        if error_is_new || self.machine.open_upcall().is_some() {
            3
        } else {
            1
        }
    }

    /// In how many of a hundred words an op would write or relabel register 0.
    fn on_zero_chance(&self) -> u32 {
        match self.machine.open_upcall() {
            Some(_) => ON_ZERO_CHANCE_IN_UPCALLS,
            None => ON_ZERO_CHANCE,
        }
    }

    /// Where a fetch is about to fail: now and then makes this place the error
    /// pc, if that has not mattered so far. Outside an upcall the run then
    /// stalls; in one it must not.
    fn move_error_pc(&mut self, random: &mut Random) {
        if !self.error_pc_decided && random.chance(20) {
            self.machine.error_pc = self.machine.pc;
            self.draft.error_pc = self.machine.pc;
        }
    }

    /// A word of an op that passes, or fails, where the machine stands; the
    /// last one tried if none does.
    fn wanted_word(&mut self, random: &mut Random, census: &Census) -> u32 {
        let (number, passed) = self.wanted_kind(random, census);
        let pc = self.machine.pc as usize;
        let before = self.words[pc];
        let is_at_edge = divides(number) && random.chance(EDGE_DIVISION_CHANCE);
        let edge = is_at_edge.then(|| random.pick(&Edge::ALL));
        let is_timed = number == op::MULTIPLY && random.chance(TIMED_MULTIPLY_CHANCE);
        let timed = is_timed.then(|| census.multiplies.wanted(random, &self.machine, passed));
        let fails_named = number == op::GATE_CALL && !passed && random.chance(NAMED_GATE_CHANCE);
        for _ in 0..TRIES {
            let word = word_of(random, number, self.machine.pc, self.machine.size);
            let word = if fails_named { self.with_gate(random, word) } else { word };
            let word = timed.map_or(word, |timed| timed.with_factors(random, &self.machine, word));
            let word = edge.map_or(word, |edge| edge.with_operands(random, &self.machine, word));
            self.words[pc] = word;
            let (has_passed, next) = self.try_step();
            let is_new = self.decided.get(next as usize) == Some(&false);
            let leads_on = is_new && self.is_of_interest(Instruction(word), passed);
            let stays = is_on_zero(Instruction(word));
            if has_passed == passed && !stays && (leads_on || random.chance(10)) {
                break;
            }
        }
        std::mem::replace(&mut self.words[pc], before)
    }

    /// The word with a register for b that names a gate, if there is one.
    fn with_gate(&self, random: &mut Random, word: u32) -> u32 {
        let Machine { gate_count, pair, .. } = self.machine;
        let is_hidden = random.chance(HIDDEN_GATE_CHANCE);
        let names_gate = |register: Register| {
            let flows = register.label.flows_to(pair.pc);
            (register.value as usize) < gate_count && !(is_hidden && flows)
        };
        with_operands(random, &self.machine, word, names_gate, |_| true)
    }

    /// An op that would write or relabel register 0, the rarer in this context so
    /// far, or so far late in an upcall, the likelier.
    fn wanted_on_zero(&self, random: &mut Random, census: &Census) -> u8 {
        let met = match self.machine.open_upcall() {
            Some((_, end_tick)) if end_tick == self.machine.clock => OnZero::Undone(Undone::Late),
            _ => OnZero::PassedBy(context(&self.machine)),
        };
        let is_late = matches!(met, OnZero::Undone(_));
        let any = is_late || self.takes_divisions(random);
        let is_wanted = |&number: &u8| writes(number) && (any || !divides(number));
        let numbers: Vec<u8> = op::KNOWN.filter(is_wanted).collect();
        let weight = |&number: &u8| rarity(census.on_zero_count(number, met));
        let weights: Vec<u32> = numbers.iter().map(weight).collect();
        numbers[random.weighted(&weights)]
    }

    /// A word of an op that would write or relabel register 0; one that nothing
    /// but register 0 stops, if it comes up.
    fn word_on_zero(&mut self, random: &mut Random, census: &Census) -> u32 {
        let number = self.wanted_on_zero(random, census);
        let pc = self.machine.pc as usize;
        let before = self.words[pc];
        for _ in 0..ON_ZERO_TRIES {
            let word = word_of(random, number, self.machine.pc, self.machine.size);
            self.words[pc] = with_a(word, ZERO_REGISTER);
            if is_stopped_alone(&self.machine, &self.words, &self.labels) {
                break;
            }
        }
        std::mem::replace(&mut self.words[pc], before)
    }

    /// An op and whether it shall pass: one that leads to something rare, or
    /// else the rarer in this context so far, the likelier.
    fn wanted_kind(&self, random: &mut Random, census: &Census) -> (u8, bool) {
        let shape = context(&self.machine);
        if let Some(kind) = self.near_end_tick(random) {
            return kind;
        }
        match (shape, random.below(100)) {
            (0, 0..=9) => return (op::GATE_CALL, true),
            (0, 10..=19) | (1, 0..=24) => return (op::UPCALL, true),
            (_, 25..=29) => return (op::STORE, true),
            (1, 30..=34) => return (op::SET_PAIR, true),
            (1, 35..=39) => return (op::GATE_RETURN, false),
            (2 | 3, 30..=34) => return (op::END_UPCALL, true),
            (_, 40..=46) => return (op::MULTIPLY, random.chance(50)),
            _ => {}
        }
        let any = self.takes_divisions(random);
        let numbers = op::KNOWN.filter(|&number| any || !divides(number));
        let kinds = numbers.flat_map(|number| [(number, false), (number, true)]);
        let kinds: Vec<(u8, bool)> =
            kinds.filter(|&(number, passed)| is_possible(shape, number, passed)).collect();
        let weight =
            |&(number, passed): &(u8, bool)| rarity(census.op_count(shape, number, passed));
        let weights: Vec<u32> = kinds.iter().map(weight).collect();
        kinds[random.weighted(&weights)]
    }

    /// Whether a division is a choice: where it would be late, seldom.
    fn takes_divisions(&self, random: &mut Random) -> bool {
        has_time(&self.machine) || random.chance(LATE_DIVISION_CHANCE)
    }

    /// Close to an upcall's end tick, or as far from it as a division takes, often
    /// an op that finishes at that tick or one past it.
    fn near_end_tick(&self, random: &mut Random) -> Option<(u8, bool)> {
        let (_, end_tick) = self.machine.open_upcall()?;
        let left = end_tick - self.machine.clock;
        if random.chance(50) {
            return None;
        }
        let passed = random.chance(50);
        match left + u64::from(random.below(2)) {
            0 => Some((op::END_UPCALL, true)),
            1 => Some((random.pick(&[op::SET, op::XOR, op::READ_CLOCK, op::BRANCH_LESS]), passed)),
            2 => Some((random.pick(&[op::RAISE, op::RELABEL, op::SET_PAIR]), passed)),
            3 => Some((random.pick(&[op::LOAD, op::STORE]), passed)),
            4 | 5 => Some((random.pick(&[op::MULTIPLY, op::GATE_CALL, op::GATE_RETURN]), false)),
            _ if (DIVISION_TICKS - 1..=DIVISION_TICKS).contains(&left) => {
                Some((random.pick(&[op::DIVIDE, op::REMAINDER]), passed))
            }
            _ => None,
        }
    }

    /// Whether the op at the pc passes and where it leads, tried on a copy.
    fn try_step(&self) -> (bool, u32) {
        let mut copy = self.machine.clone();
        let event = copy.step_watched(&mut self.words.clone(), &self.labels);
        (matches!(event, Ok(Event::Passed | Event::Closed(1))), copy.pc)
    }

    /// Whether an op that fails does so by labels alone: its words are in memory,
    /// its values are labels, its new pair is valid, its gate exists.
    fn fails_narrowly(&self, i: Instruction) -> bool {
        let Machine { size, gate_count, registers, .. } = &self.machine;
        let (b, c) = (registers[i.b()].value, registers[i.c()].value);
        match i.op() {
            op::LOAD | op::STORE => b < *size,
            op::RAISE | op::RELABEL => b < 256,
            op::SET_PAIR | op::UPCALL => {
                b < 256 && c < 256 && Pair::new(b as u8, c as u8).is_valid()
            }
            op::GATE_CALL => (b as usize) < *gate_count,
            _ => true,
        }
    }

    /// Whether an op leads to something. One that fails shall fail narrowly. Of
    /// those that pass, an upcall shall end within the run or never and return to
    /// a new word, a store put an op where the program soon comes by, and op 17
    /// change the pc label.
    fn is_of_interest(&self, i: Instruction, passed: bool) -> bool {
        let Machine { pc, registers, .. } = &self.machine;
        let (a, b) = (registers[i.a()].value, registers[i.b()].value);
        match i.op() {
            _ if !passed => self.fails_narrowly(i),
            op::UPCALL => {
                let back = registers[i.d()].value as usize;
                (a <= LONGEST_UPCALL || a == u32::MAX) && self.decided.get(back) == Some(&false)
            }
            op::STORE => b > *pc && b < pc + 20 && op::KNOWN.contains(&Instruction(a).op()),
            op::SET_PAIR => b != u32::from(self.machine.pair.pc.0),
            _ => true,
        }
    }

    /// Does the step. A word that it reads or writes is decided from then on.
    fn step(&mut self) {
        let word = self.words.get(self.machine.pc as usize).copied().unwrap_or(0);
        let instruction = Instruction(word);
        if let op::LOAD | op::STORE = instruction.op() {
            let address = self.machine.registers[instruction.b()].value as usize;
            if let Some(decided) = self.decided.get_mut(address) {
                *decided = true;
            }
        }
        let in_upcall = self.machine.open_upcall().is_some();
        let event = self.machine.step_watched(&mut self.words, &self.labels);
        let event = event.expect("a loaded record stays fit");
        self.finishes.push(self.machine.clock);
        if in_upcall {
            self.finishes_in_upcalls.push(self.machine.clock);
        }
        match event {
            Event::Closed(_) => self.finishes_of_closes.push(self.machine.clock),
            Event::FetchFailed(_) | Event::Stalled(_) => self.error_pc_decided = true,
            Event::Failed if is_on_zero(instruction) => {
                self.finishes_on_zero.push(self.machine.clock);
            }
            _ => {}
        }
    }

    /// Puts the limit at, just before or just after the finish of a step, often of
    /// one in an upcall or at register 0; or far away. What came before runs the same
    /// under either limit.
    fn choose_limit(&mut self, random: &mut Random) {
        let steps = match random.below(7) {
            0 | 1 if !self.finishes_of_closes.is_empty() => &self.finishes_of_closes,
            2 | 3 if !self.finishes_in_upcalls.is_empty() => &self.finishes_in_upcalls,
            4 if !self.finishes_on_zero.is_empty() => &self.finishes_on_zero,
            _ => &self.finishes,
        };
        match random.below(100) {
            0..=54 => {
                let limit = steps[random.index(steps.len())] + u64::from(random.below(4));
                self.draft.limit = limit.saturating_sub(2).max(1);
            }
            55..=69 if self.machine.end != end::SPENT => self.draft.limit = MAX_LIMIT,
            70 => self.draft.limit = u64::from(random.between(1_000, 1_000_000)),
            _ => {}
        }
    }
}

/// The weight of something met so often: the rarer, the heavier.
fn rarity(count: u64) -> u32 {
    (1_000_000 / (count + 10)) as u32 + 1
}
