//! Making a pair: an image, a label, and a second image that differs from the
//! first only in what that label doesn't see.

use super::image::Image;
use super::seen::is_within;
use interpreter::draft::Draft;
use interpreter::generator::census::Census;
use interpreter::generator::compose::compose;
use interpreter::generator::division::divides;
use interpreter::generator::labels::{not_below, valid_pair};
use interpreter::generator::random::Random;
use interpreter::instruction::{encode, op, Instruction};
use interpreter::machine::{end, ZERO_REGISTER};
use interpreter::{Label, Machine, Register};

/// The second machine may loop where the first one halts; no run is longer.
pub(super) const LONGEST: u64 = 400;

/// So many images are tried for one whose run shows what is wanted.
const TRIES: u32 = 12;

/// Two images of "equal size, gates, error place and tick limit and alike at or
/// below that label".
pub struct Pair {
    pub level: Label,
    pub one: Draft,
    pub other: Draft,
}

impl Pair {
    pub fn make(random: &mut Random) -> Pair {
        let (mut one, level) = choose(random);
        if is_within(one.pair.pc, level) && !is_within(one.pair.timing, level) {
            hide_factors(random, &mut one);
        }
        let mut other = one.clone();
        other.registers.iter_mut().for_each(|register| change(random, level, register));
        other.words.iter_mut().for_each(|word| change(random, level, word));
        if !is_within(one.pair.pc, level) && random.chance(70) {
            change_control(random, level, &mut other);
        }
        Pair { level, one, other }
    }

    /// Prints what is wrong with it, and both images.
    pub fn show(&self, what: &str) {
        let Pair { level, one, other } = self;
        println!("at label {}: {what}", level.0);
        println!("{}\nand\n{}", one.lines().join("\n"), other.lines().join("\n"));
    }

    /// What its machines are loaded from where nothing else is said.
    pub fn texts(&self) -> [Image; 2] {
        [&self.one, &self.other].map(|draft| Image::Text(draft.text()))
    }
}

/// Labels at which a run of the image shows something.
#[derive(Default)]
struct Levels {
    /// The clock labels under which it opens upcalls that are hidden from them.
    callers: Vec<Label>,
    /// The labels to which it lowers a register.
    lowered: Vec<Label>,
    /// The clock labels under which it divides, and under which it multiplies, what
    /// is hidden from them.
    dividing: Vec<Label>,
    multiplying: Vec<Label>,
}

/// An image and a label at which something is hidden that its run comes by.
fn choose(random: &mut Random) -> (Draft, Label) {
    let (tries, wanted): (u32, fn(&Levels) -> &[Label]) = match random.below(20) {
        0..=9 => (TRIES, |levels| &levels.callers),
        10..=14 => (TRIES, |levels| &levels.lowered),
        15 | 16 => (TRIES, |levels| &levels.dividing),
        17 => (TRIES, |levels| &levels.multiplying),
        _ => (0, |_| &[]),
    };
    for _ in 0..tries {
        let draft = choose_image(random);
        let levels = watch(&draft);
        if !wanted(&levels).is_empty() {
            let level = random.pick(wanted(&levels));
            return (draft, level);
        }
    }
    let draft = choose_image(random);
    let level = choose_level(random, &draft);
    (draft, level)
}

fn choose_image(random: &mut Random) -> Draft {
    let mut draft = compose(random, &Census::new());
    draft.limit = draft.limit.min(LONGEST);
    draft
}

/// A label of the image's own, or any.
fn choose_level(random: &mut Random, draft: &Draft) -> Label {
    let gates = draft.gates.iter().flat_map(|gate| [gate.pair.pc, gate.pair.timing]);
    let mut levels = vec![draft.pair.pc, draft.pair.timing, Label(random.bits() as u8)];
    levels.extend(gates);
    random.pick(&levels)
}

/// The clock label of an upcall's caller, where the step opens one that it hides.
fn hidden_from(before: &Machine, after: &Machine) -> Option<Label> {
    let (back, _) = after.open_upcall().filter(|_| before.open_upcall().is_none())?;
    let caller = back.pair.timing;
    (!is_within(after.pair.pc, caller)).then_some(caller)
}

/// Whether the word at the pc names an operand, Rb or Rc, that the clock label
/// doesn't see; its op, if so.
fn op_on_hidden(machine: &Machine, words: &[u32]) -> Option<u8> {
    let i = Instruction(*words.get(machine.pc as usize)?);
    let operands = [i.b(), i.c()].map(|number| machine.registers[number].label);
    let is_hidden = operands.iter().any(|&label| !is_within(label, machine.pair.timing));
    is_hidden.then_some(i.op())
}

/// Runs the image and notes the levels.
fn watch(draft: &Draft) -> Levels {
    let (mut machine, mut words, labels) = draft.loaded();
    let mut levels = Levels::default();
    while machine.end == end::RUNNING {
        let before = machine.clone();
        match op_on_hidden(&before, &words) {
            Some(op::MULTIPLY) => levels.multiplying.push(before.pair.timing),
            Some(number) if divides(number) => levels.dividing.push(before.pair.timing),
            _ => {}
        }
        machine.step(&mut words, &labels).expect("a loaded record stays fit");
        levels.callers.extend(hidden_from(&before, &machine));
        let registers = before.registers.iter().zip(&machine.registers);
        let lowered = registers.filter(|(a, b)| !a.label.flows_to(b.label));
        levels.lowered.extend(lowered.map(|(_, after)| after.label));
    }
    levels
}

/// Puts half of the registers at the clock label, so that a multiply takes its
/// time by what is hidden where only p is seen. Register 0 keeps the lowest.
fn hide_factors(random: &mut Random, draft: &mut Draft) {
    for register in &mut draft.registers[ZERO_REGISTER + 1..] {
        if random.chance(50) {
            register.label = draft.pair.timing;
        }
    }
}

/// Changes what is hidden: the value, at times the label, to another hidden one.
/// Register 0, whose label flows to every other, is never hidden.
pub(super) fn change(random: &mut Random, level: Label, location: &mut Register) {
    if is_within(location.label, level) || random.chance(30) {
        return;
    }
    location.value = match random.below(5) {
        0 => random.below(256),
        1 => location.value ^ 1 << random.below(32),
        2 => random.bits(),
        // What a quick division would be quick with.
        3 => random.pick(&[0, 0, 1, u32::MAX]),
        _ => any_op(random),
    };
    let label = not_below(random, level);
    if random.chance(25) && !is_within(label, level) {
        location.label = label;
    }
}

/// A word of any op.
pub fn any_op(random: &mut Random) -> u32 {
    let (first, last) = (*op::KNOWN.start(), *op::KNOWN.end());
    let number = random.between(first.into(), last.into()) as u8;
    encode(number, random.bits(), random.bits(), random.bits())
}

/// Where p is hidden, so are the place and the pair.
pub(super) fn change_control(random: &mut Random, level: Label, draft: &mut Draft) {
    draft.pc = random.below(draft.words.len() as u32 + 1);
    let pair = valid_pair(random);
    if !is_within(pair.pc, level) {
        draft.pair = pair;
    }
}
