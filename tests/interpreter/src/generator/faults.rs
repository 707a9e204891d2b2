//! The faults of a line, and putting them into the lines of a good image.

use super::labels;
use super::random::Random;
use crate::draft::Draft;
use crate::label::Label;
use crate::machine::ZERO_REGISTER;

/// The faults that a line can have, in the order in which they are tried: "a
/// line is tried for 2, 4 (kind), 3, 4 (rising), then 5", for 9, an R line for
/// register 0, "after the rising test", and for 13, a gate pair not valid, "after
/// the line's other tests".
#[derive(Clone, Copy, Debug, PartialEq, Eq)]
pub enum Fault {
    Form,
    Kind,
    Range,
    Rising,
    Pair,
    Zero,
    GatePair,
}
use Fault::{Form, GatePair, Kind, Pair, Range, Rising, Zero};

/// The names of all that can be done to a line, under which it is counted.
pub const FAULTS: [&str; 52] = [
    "form fault: lower-case letter",
    "form fault: unknown letter",
    "form fault: letter twice",
    "form fault: no letter",
    "form fault: field missing",
    "form fault: field too many",
    "form fault: comma at the end",
    "form fault: empty line",
    "form fault: first line not M",
    "form fault: empty field",
    "form fault: leading zero",
    "form fault: sign",
    "form fault: minus",
    "form fault: blank",
    "form fault: CR",
    "form fault: eleven digits",
    "form fault: quotes",
    "form fault: not a digit",
    "gate pair fault: p doesn't flow to t",
    "gate pair fault: p isn't sound",
    "gate pair fault: t isn't sound",
    "kind fault: M behind M",
    "kind fault: M behind G",
    "kind fault: M behind R",
    "kind fault: M behind W",
    "kind fault: G behind R",
    "kind fault: G behind W",
    "kind fault: R behind W",
    "pair fault: p doesn't flow to t",
    "pair fault: p isn't sound",
    "pair fault: t isn't sound",
    "range fault: M field 1",
    "range fault: M field 2",
    "range fault: M field 3",
    "range fault: M field 4",
    "range fault: M field 5",
    "range fault: M field 6",
    "range fault: G field 1",
    "range fault: G field 2",
    "range fault: G field 3",
    "range fault: R field 1",
    "range fault: R field 2",
    "range fault: R field 3",
    "range fault: W field 1",
    "range fault: W field 2",
    "range fault: W field 3",
    "rising fault: R equal",
    "rising fault: R falling",
    "rising fault: W equal",
    "rising fault: W falling",
    "zero fault: value 0 and label 240",
    "zero fault: any value and label",
];

/// Where the pair stands in an M line, and in a G line.
const PAIR_FIELDS: [usize; 2] = [4, 5];
const GATE_PAIR_FIELDS: [usize; 2] = [2, 3];

/// A gate of a valid pair.
const GOOD_GATE: &str = "G,3,240,240";

/// The lines of an image, each cut into its fields, while being damaged.
pub struct Lines {
    pub lines: Vec<Vec<String>>,
    pub names: Vec<String>,
}

/// The refusal's number for each fault.
pub fn number(fault: Fault) -> u8 {
    match fault {
        Form => 2,
        Range => 3,
        Kind | Rising => 4,
        Pair => 5,
        Zero => 9,
        GatePair => 13,
    }
}

impl Lines {
    /// A good image with at least three R and three W lines, its lines cut into
    /// fields.
    pub fn good(random: &mut Random, gates: u32) -> Lines {
        let size = random.between(8, 60);
        let pair = labels::valid_pair(random);
        let limit = u64::from(random.between(1, 300));
        let (error_pc, pc) = (random.below(size + 2), random.below(size + 2));
        let mut draft = Draft::new(size as usize, error_pc, pc, pair, limit);
        (0..gates).for_each(|_| {
            let pair = labels::valid_pair(random);
            draft.gate(random.bits(), pair.pc.0, pair.timing.0);
        });
        (0..random.between(3, 6) as usize).for_each(|index| {
            draft.register(2 * index + 1, random.bits() as u8, random.bits() | 1);
        });
        (0..random.between(3, 7) as usize).for_each(|index| {
            draft.word(index + random.index(2), random.bits() as u8, random.bits() | 1);
        });
        draft.word(7, 240, random.bits() | 1);
        let cut = |line: &String| line.split(',').map(str::to_string).collect();
        Lines { lines: draft.lines().iter().map(cut).collect(), names: Vec::new() }
    }

    fn letter(&self, line: usize) -> &str {
        &self.lines[line][0]
    }

    /// Whether a line can have a fault, alone or after others: the pair is on the
    /// first line, a kind can be out of order after it, and a number can fail to
    /// rise behind another of its kind.
    fn takes(&self, line: usize, fault: Fault, others: &[Fault]) -> bool {
        match fault {
            Form | Range => true,
            Kind => line > 0,
            Rising => {
                let letter = self.letter(line);
                (letter == "R" || letter == "W") && self.letter(line - 1) == letter
            }
            Pair => line == 0,
            Zero => line > 0 && self.takes_zero(line, others),
            GatePair => line > 0 && self.takes_gate_pair(line, others),
        }
    }

    /// Whether a line can be a G line, which stands behind an R or a W line if its
    /// kind shall be out of order.
    fn takes_gate_pair(&self, line: usize, others: &[Fault]) -> bool {
        if others.contains(&Kind) {
            matches!(self.letter(line - 1), "R" | "W")
        } else {
            self.letter(line) == "G"
        }
    }

    /// Whether a line can be that of register 0, which stands behind a W line if
    /// its kind shall be out of order, behind an R line if it shall not rise, and
    /// else before all other R lines.
    fn takes_zero(&self, line: usize, others: &[Fault]) -> bool {
        let (behind, is_register) = (self.letter(line - 1), self.letter(line) == "R");
        if others.contains(&Kind) {
            behind == "W"
        } else if others.contains(&Rising) {
            behind == "R" && is_register
        } else {
            behind != "R" && is_register
        }
    }

    /// Whether a line can have a fault that isn't reached, for an earlier line is
    /// refused. An R line for register 0 can then stand at any, and where no G line
    /// is left any line can become one.
    fn takes_behind(&self, line: usize, fault: Fault, earlier: usize) -> bool {
        match fault {
            Zero => self.letter(line) == "R",
            GatePair => self.letter(line) == "G" || self.letter(earlier + 1) != "G",
            fault => self.takes(line, fault, &[]),
        }
    }

    /// A line that can have all the faults.
    fn line_for(&self, random: &mut Random, faults: &[Fault]) -> usize {
        let takes_all = |&line: &usize| faults.iter().all(|&fault| self.takes(line, fault, faults));
        let lines: Vec<usize> = (0..self.lines.len()).filter(takes_all).collect();
        // The first line is one of many, yet it has the most to go wrong.
        if lines[0] == 0 && random.chance(35) {
            return 0;
        }
        random.pick(&lines)
    }

    /// Puts faults on one line and gives its index.
    pub fn put(&mut self, random: &mut Random, faults: &[Fault]) -> usize {
        let line = self.line_for(random, faults);
        self.apply(random, line, faults);
        line
    }

    /// Puts a fault on a line and another on a later one; gives the first line.
    pub fn put_two(&mut self, random: &mut Random, fault: Fault, other: Fault) -> usize {
        loop {
            let line = self.line_for(random, &[fault]);
            let behind = line + 1..self.lines.len();
            let lines: Vec<usize> =
                behind.filter(|&later| self.takes_behind(later, other, line)).collect();
            if !lines.is_empty() {
                let later = random.pick(&lines);
                self.apply(random, later, &[other]);
                self.apply(random, line, &[fault]);
                return line;
            }
        }
    }

    /// The first line of a letter that a good image has.
    pub fn first_of(&self, letter: &str) -> usize {
        let line = (0..self.lines.len()).find(|&line| self.letter(line) == letter);
        line.expect("a good image has G, R and W lines")
    }

    /// A ninth G behind the eight, or behind a later line, of bad form, or of a pair
    /// that is not valid, which is tried later.
    pub fn add_ninth_gate(&mut self, random: &mut Random, fault: Option<Fault>) -> (u8, usize) {
        let fields: Vec<String> = GOOD_GATE.split(',').map(str::to_string).collect();
        let behind_gates = 9;
        let line = match fault {
            Some(Kind) => random.between(behind_gates + 1, self.lines.len() as u32) as usize,
            _ => behind_gates as usize,
        };
        self.lines.insert(line, fields);
        if let Some(fault @ (Form | GatePair)) = fault {
            self.apply(random, line, &[fault]);
        }
        let earlier = fault.filter(|&fault| fault != GatePair);
        (earlier.map_or(number(Range), number), line + 1)
    }

    /// Makes a line the last one, which is to lose its LF, with another fault or
    /// none.
    pub fn end_at(
        &mut self,
        random: &mut Random,
        line: usize,
        fault: Option<Fault>,
    ) -> (u8, usize) {
        self.lines.truncate(line + 1);
        if let Some(fault) = fault {
            self.apply(random, line, &[fault]);
        }
        (2, line + 1)
    }

    /// Applies the faults to a line. The kind is changed before the fields, and
    /// the form last and on a field that has no other fault.
    pub fn apply(&mut self, random: &mut Random, line: usize, faults: &[Fault]) {
        let has = |fault: Fault| faults.contains(&fault);
        if has(Kind) {
            self.break_kind(random, line, faults);
        }
        if has(Pair) {
            self.break_pair(random, line, "pair", PAIR_FIELDS);
        }
        if has(GatePair) {
            self.make_gate(line);
            self.break_pair(random, line, "gate pair", GATE_PAIR_FIELDS);
        }
        if has(Rising) {
            self.break_rising(random, line, has(Zero));
        }
        if has(Zero) {
            self.name_zero(random, line);
        }
        let mut spoilt = Vec::new();
        if has(Pair) {
            spoilt.extend(PAIR_FIELDS);
        }
        if has(GatePair) {
            spoilt.extend(GATE_PAIR_FIELDS);
        }
        if has(Rising) || has(Zero) {
            spoilt.push(1);
        }
        if has(Range) {
            spoilt.push(self.break_range(random, line, &spoilt));
        }
        if has(Form) {
            self.break_form(random, line, &spoilt);
        }
    }

    /// A second M, or a G or an R behind a later kind; only an R where it is to
    /// be that of register 0, and only a G where its pair is to be no valid one.
    fn break_kind(&mut self, random: &mut Random, line: usize, faults: &[Fault]) {
        let (for_zero, for_gate) = (faults.contains(&Zero), faults.contains(&GatePair));
        let rank = |letter: &str| "MGRW".find(letter).unwrap_or(0);
        let previous = rank(self.letter(line - 1));
        let mut choices = Vec::new();
        if !for_zero && !for_gate {
            choices.push("M,8,7,0,240,240,100");
        }
        if previous > rank("G") && !for_zero {
            choices.push(GOOD_GATE);
        }
        if previous > rank("R") && !for_gate {
            choices.push("R,15,240,1");
        }
        let choice = random.pick(&choices);
        let before = self.letter(line - 1).to_string();
        self.names.push(format!("kind fault: {} behind {before}", &choice[..1]));
        self.lines[line] = choice.split(',').map(str::to_string).collect();
    }

    /// Makes a line that isn't one a G line.
    fn make_gate(&mut self, line: usize) {
        if self.letter(line) != "G" {
            self.lines[line] = GOOD_GATE.split(',').map(str::to_string).collect();
        }
    }

    /// A pair that is not valid, of the machine or of a gate.
    fn break_pair(&mut self, random: &mut Random, line: usize, whose: &str, fields: [usize; 2]) {
        let pair = labels::invalid_pair(random);
        let (p, t) = (pair.pc, pair.timing);
        if !p.flows_to(t) {
            self.names.push(format!("{whose} fault: p doesn't flow to t"));
        }
        if !p.is_sound() {
            self.names.push(format!("{whose} fault: p isn't sound"));
        }
        if !t.is_sound() {
            self.names.push(format!("{whose} fault: t isn't sound"));
        }
        self.lines[line][fields[0]] = p.0.to_string();
        self.lines[line][fields[1]] = t.0.to_string();
    }

    /// The number of the line before, or a smaller one, or 0.
    fn break_rising(&mut self, random: &mut Random, line: usize, to_zero: bool) {
        let previous: u32 = self.lines[line - 1][1].parse().unwrap_or(0);
        let number = match random.below(2) {
            _ if to_zero => 0,
            0 => previous,
            _ => random.below(previous + 1),
        };
        let how = if number == previous { "equal" } else { "falling" };
        self.names.push(format!("rising fault: {} {how}", self.letter(line)));
        self.lines[line][1] = number.to_string();
    }

    /// Makes an R line that of register 0, now and then with what it holds anyway.
    fn name_zero(&mut self, random: &mut Random, line: usize) {
        self.lines[line][1] = ZERO_REGISTER.to_string();
        let name = if random.chance(40) {
            self.lines[line][2] = Label::LOWEST.0.to_string();
            self.lines[line][3] = "0".to_string();
            "value 0 and label 240"
        } else {
            "any value and label"
        };
        self.names.push(format!("zero fault: {name}"));
    }

    /// Puts a field out of its range, at its edge or far off; gives the field.
    fn break_range(&mut self, random: &mut Random, line: usize, spoilt: &[usize]) -> usize {
        let size = self.lines[0][1].clone();
        let (word, label) = ("4294967296", "256");
        let edges: &[&[&str]] = match self.letter(line) {
            "M" => &[&["0", "2049"], &[word], &[word], &[label], &[label], &["0", "16777217"]],
            "G" => &[&[word], &[label], &[label]],
            "R" => &[&["16"], &[label], &[word]],
            _ => &[&[&size], &[label], &[word]],
        };
        let fields = 1..self.lines[line].len();
        let free: Vec<usize> = fields.filter(|field| !spoilt.contains(field)).collect();
        let field = random.pick(&free);
        let edge = random.pick(edges[field - 1]);
        let value = if random.chance(25) { "9999999999" } else { edge };
        self.names.push(format!("range fault: {} field {field}", self.letter(line)));
        self.lines[line][field] = value.to_string();
        field
    }

    /// Spoils the letter, the number of fields, or the digits of a field.
    fn break_form(&mut self, random: &mut Random, line: usize, spoilt: &[usize]) {
        let fields = &mut self.lines[line];
        let free: Vec<usize> = (1..fields.len()).filter(|field| !spoilt.contains(field)).collect();
        let field = random.pick(&free);
        // A first line has one more way, which comes up more often.
        let name = match random.below(if line == 0 { 21 } else { 17 }) {
            0 => set(&mut fields[0], |letter| letter.to_lowercase(), "lower-case letter"),
            1 => set(&mut fields[0], |_| "X".to_string(), "unknown letter"),
            2 => set(&mut fields[0], |letter| letter.repeat(2), "letter twice"),
            3 => set(&mut fields[0], |_| String::new(), "no letter"),
            4 => {
                fields.remove(field);
                "field missing"
            }
            5 => {
                fields.insert(field, "1".to_string());
                "field too many"
            }
            6 => {
                fields.push(String::new());
                "comma at the end"
            }
            7 => {
                *fields = vec![String::new()];
                "empty line"
            }
            8 | 17.. if line == 0 => {
                let other = random.pick(&["G,0,240,240", "R,0,240,1", "W,0,240,1"]);
                *fields = other.split(',').map(str::to_string).collect();
                "first line not M"
            }
            number => {
                let (value, name) = bad_digits(number, &fields[field]);
                fields[field] = value;
                name
            }
        };
        self.names.push(format!("form fault: {name}"));
    }
}

/// Changes a field in place and gives the name of what was done.
fn set(field: &mut String, change: impl Fn(&str) -> String, name: &'static str) -> &'static str {
    *field = change(field);
    name
}

/// A field that isn't "one to ten digits without leading zeros".
fn bad_digits(number: u32, digits: &str) -> (String, &'static str) {
    match number {
        9 => (String::new(), "empty field"),
        10 => (format!("0{digits}"), "leading zero"),
        11 => (format!("+{digits}"), "sign"),
        12 => (format!("-{digits}"), "minus"),
        13 => (format!("{digits} "), "blank"),
        14 => (format!("{digits}\r"), "CR"),
        15 => ("12345678901".to_string(), "eleven digits"),
        16 => (format!("\"{digits}\""), "quotes"),
        _ => (format!("{digits}a"), "not a digit"),
    }
}
