//! "What a label sees": states, and when two of them are alike.

use interpreter::{Label, Machine, Register};

/// A record with its memory, which is just as long as the size.
#[derive(Clone, Debug, PartialEq, Eq)]
pub struct State {
    pub machine: Machine,
    pub words: Vec<u32>,
    pub labels: Vec<u8>,
}

/// "A label is within ℓ when it flows to ℓ, else outside."
pub fn is_within(label: Label, level: Label) -> bool {
    label.flows_to(level)
}

impl State {
    /// Whether p is within ℓ.
    pub fn shows_control(&self, level: Label) -> bool {
        is_within(self.machine.pair.pc, level)
    }

    /// A word below the size, with its label.
    pub fn word(&self, address: usize) -> Register {
        Register { value: self.words[address], label: Label(self.labels[address]) }
    }

    /// Puts something else into every word, with its label.
    pub fn set_words(&mut self, mut new: impl FnMut(Register) -> Register) {
        for address in 0..self.words.len() {
            let Register { value, label } = new(self.word(address));
            (self.words[address], self.labels[address]) = (value, label.0);
        }
    }

    /// All registers, then all words below the size.
    pub fn locations(&self) -> impl Iterator<Item = Register> + '_ {
        let words = (0..self.words.len()).map(|address| self.word(address));
        self.machine.registers.iter().copied().chain(words)
    }
}

/// "which registers and words below the size have labels flowing to ℓ, with
/// labels and values"
pub fn seen(location: Register, level: Label) -> Option<Register> {
    is_within(location.label, level).then_some(location)
}

/// "whether p does; and if so place, pair, clock, open calls, end and why"
fn same_control(level: Label, one: &State, other: &State) -> bool {
    let (a, b) = (&one.machine, &other.machine);
    match (one.shows_control(level), other.shows_control(level)) {
        (true, true) => {
            (a.pc, a.pair, a.clock, a.end, a.why) == (b.pc, b.pair, b.clock, b.end, b.why)
                && (a.first, a.second) == (b.first, b.second)
        }
        (false, false) => true,
        _ => false,
    }
}

/// "'Alike at or below ℓ' compares exactly what is seen there."
pub fn are_alike(level: Label, one: &State, other: &State) -> bool {
    let same_location = |(a, b)| seen(a, level) == seen(b, level);
    same_control(level, one, other) && one.locations().zip(other.locations()).all(same_location)
}

/// Tells what differs between two states that are not alike.
pub fn difference(level: Label, one: &State, other: &State) -> String {
    let locations = one.locations().zip(other.locations()).enumerate();
    for (number, (a, b)) in locations {
        if seen(a, level) != seen(b, level) {
            let (letter, number) = if number < 16 { ('R', number) } else { ('W', number - 16) };
            return format!("{letter},{number}: {a:?} and {b:?}");
        }
    }
    format!("control: {:?}\nand {:?}", one.machine, other.machine)
}
