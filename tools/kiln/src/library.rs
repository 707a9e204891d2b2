//! The library's C functions, as `include/jennydusk.h` declares them, and safe
//! calls over them. What an image means is asked here and nowhere else.

#![allow(unsafe_code)]

use crate::ops;
use std::ops::Range;

/// As many words as a machine can have: memory of this length is never short.
pub const WORDS: usize = 2048;
pub const REGISTERS: usize = 16;
/// This register is always value 0, label 240. A record in which it isn't is refused.
pub const ZERO_REGISTER: usize = 0;
/// An image has at most so many bytes.
pub const TEXT: usize = 65_535;

/// The ends of a run, and why it stalled.
pub const RUNNING: u64 = 0;
pub const HALTED: u64 = 1;
pub const CLOCK_SPENT: u64 = 2;
pub const WHY_PC: u64 = 1;
pub const WHY_LABEL: u64 = 2;
pub const WHY_OP: u64 = 3;

/// The kind of a call that is an upcall.
pub const UPCALL: u64 = 2;

/// The causes of a certificate's first break.
pub const NO_BREAK: u64 = 0;
pub const RELEASE: u64 = 1;
pub const AT_LARGE: u64 = 2;
pub const TIMED_FROM_OUTSIDE: u64 = 3;

/// The record's layout: the place of each field in its buffer.
mod place {
    pub const SPAN: usize = 76;
    pub const SIZE: usize = 0;
    pub const LIMIT: usize = 1;
    pub const ERROR_PC: usize = 2;
    pub const GATE_COUNT: usize = 3;
    pub const PC: usize = 28;
    pub const PC_LABEL: usize = 29;
    pub const TIMING_LABEL: usize = 30;
    pub const CLOCK: usize = 31;
    pub const CALLS: usize = 32;
    pub const CALL_SPAN: usize = 5;
    pub const CALL_COUNT: usize = 2;
    pub const END: usize = 42;
    pub const WHY: usize = 43;
    pub const VALUES: usize = 44;
    pub const LABELS: usize = 60;
}

/// A certificate's layout.
mod certificate {
    pub const SPAN: usize = 3;
    pub const CAUSE: usize = 0;
    pub const BREAK_TICK: usize = 1;
    pub const PLACE: usize = 2;
}

/// An answer is a number, with a line, a length or the limit above it.
const NUMBERS: u64 = 256;
const DONE: u64 = 0;
/// The refusal of a view at a tick above the limit.
pub const TICK: u8 = 10;
/// The refusals of a HEX text: a record that is none, a byte that can't be placed.
pub const HEX_RECORD: u8 = 11;
pub const HEX_BYTE: u8 = 12;
/// The refusal of a G line whose pair isn't valid.
pub const GATE_PAIR: u8 = 13;
/// Longer than any listing, which has some 46,000 bytes at most.
const LISTING: usize = 65_536;
/// Longer than a listing without W lines, and than a W line.
const WITHOUT_WORDS: usize = 1_024;
const WORD_LINE: usize = 32;

#[rustfmt::skip]
#[link(name = "jennydusk", kind = "static")]
extern "C" {
    fn jennydusk_load(text: *const u8, text_length: usize, words: *mut u32, words_length: usize, labels: *mut u8, labels_length: usize, record: *mut u64, record_length: usize) -> u64;
    fn jennydusk_load_hex(text: *const u8, text_length: usize, hex: *const u8, hex_length: usize, label: u8, words: *mut u32, words_length: usize, labels: *mut u8, labels_length: usize, record: *mut u64, record_length: usize, line: *mut u64) -> u64;
    fn jennydusk_step(record: *mut u64, record_length: usize, words: *mut u32, words_length: usize, labels: *mut u8, labels_length: usize) -> u64;
    fn jennydusk_run(record: *mut u64, record_length: usize, words: *mut u32, words_length: usize, labels: *mut u8, labels_length: usize) -> u64;
    fn jennydusk_run_to(record: *mut u64, record_length: usize, words: *mut u32, words_length: usize, labels: *mut u8, labels_length: usize, tick: u64) -> u64;
    fn jennydusk_print(record: *const u64, record_length: usize, words: *const u32, words_length: usize, labels: *const u8, labels_length: usize, output: *mut u8, output_length: usize) -> u64;
    fn jennydusk_print_for(record: *const u64, record_length: usize, words: *const u32, words_length: usize, labels: *const u8, labels_length: usize, label: u8, output: *mut u8, output_length: usize) -> u64;
    fn jennydusk_view(text: *const u8, text_length: usize, label: u8, tick: u64, words: *mut u32, words_length: usize, labels: *mut u8, labels_length: usize, output: *mut u8, output_length: usize) -> u64;
    fn jennydusk_certify(label: u8, text: *const u8, text_length: usize, words: *mut u32, words_length: usize, labels: *mut u8, labels_length: usize, certificate: *mut u64, certificate_length: usize) -> u64;
    fn jennydusk_flows(from: u8, to: u8) -> bool;
    fn jennydusk_is_valid_pair(pc: u8, timing: u8) -> bool;
}

/// Why a text is no image: the refusal's number and its line, of the HEX text for
/// HEX_RECORD and HEX_BYTE. Or why an image can't be viewed: TICK, and the limit.
#[derive(Clone, Copy, Debug, PartialEq, Eq)]
pub struct Refusal {
    pub number: u8,
    pub beside: usize,
}

/// A pc label and a timing label.
#[derive(Clone, Copy, Debug, PartialEq, Eq)]
pub struct Pair {
    pub pc_label: u8,
    pub timing_label: u8,
}

/// An open call; the end tick is an upcall's.
#[derive(Clone, Copy, Debug, PartialEq, Eq)]
pub struct Call {
    pub kind: u64,
    pub return_pc: u32,
    pub pair: Pair,
    pub end_tick: u64,
}

/// A register or a word.
#[derive(Clone, Copy, Debug, PartialEq, Eq)]
pub struct Cell {
    pub label: u8,
    pub value: u32,
}

/// The first break of a certificate: its cause, its tick, and its place, which is
/// 0 where it is out of sight.
#[derive(Clone, Copy, Debug, PartialEq, Eq)]
pub struct Certificate {
    pub cause: u64,
    pub tick: u64,
    pub place: usize,
}

/// A machine: its record, and memory as long as a machine can need.
#[derive(Debug)]
pub struct Machine {
    record: [u64; place::SPAN],
    words: Vec<u32>,
    labels: Vec<u8>,
}

/// Copying one machine over another takes no new memory.
impl Clone for Machine {
    fn clone(&self) -> Machine {
        Machine { record: self.record, words: self.words.clone(), labels: self.labels.clone() }
    }

    fn clone_from(&mut self, other: &Machine) {
        self.record = other.record;
        self.words.clone_from(&other.words);
        self.labels.clone_from(&other.labels);
    }
}

/// The calls. Every pointer is that of a slice of the length beside it, or of the
/// one word for a line, and what may be changed overlaps nothing else.
#[rustfmt::skip]
impl Machine {
    /// What a load is lent: no record yet, and memory.
    fn unloaded() -> Machine {
        Machine { record: [0; place::SPAN], words: vec![0; WORDS], labels: vec![0; WORDS] }
    }

    pub fn load(text: &[u8]) -> Result<Machine, Refusal> {
        let mut machine = Machine::unloaded();
        let Machine { record, words, labels } = &mut machine;
        let answer = unsafe { jennydusk_load(text.as_ptr(), text.len(), words.as_mut_ptr(), words.len(), labels.as_mut_ptr(), labels.len(), record.as_mut_ptr(), record.len()) };
        if answer == DONE { Ok(machine) } else { Err(refusal(answer)) }
    }

    /// Loads an M text of one line with a HEX text, whose words get the label.
    pub fn load_hex(text: &[u8], hex: &[u8], label: u8) -> Result<Machine, Refusal> {
        let mut machine = Machine::unloaded();
        let Machine { record, words, labels } = &mut machine;
        let mut line = 0;
        let answer = unsafe { jennydusk_load_hex(text.as_ptr(), text.len(), hex.as_ptr(), hex.len(), label, words.as_mut_ptr(), words.len(), labels.as_mut_ptr(), labels.len(), record.as_mut_ptr(), record.len(), &mut line) };
        if answer == DONE { Ok(machine) } else { Err(Refusal { number: answer as u8, beside: line as usize }) }
    }

    pub fn step(&mut self) {
        let Machine { record, words, labels } = self;
        let answer = unsafe { jennydusk_step(record.as_mut_ptr(), record.len(), words.as_mut_ptr(), words.len(), labels.as_mut_ptr(), labels.len()) };
        assert_eq!(answer, DONE, "a loaded record in whole memory is stepped");
    }

    pub fn run(&mut self) {
        let Machine { record, words, labels } = self;
        let answer = unsafe { jennydusk_run(record.as_mut_ptr(), record.len(), words.as_mut_ptr(), words.len(), labels.as_mut_ptr(), labels.len()) };
        assert_eq!(answer, DONE, "a loaded record in whole memory is run");
    }

    /// Does every step that finishes at or before a tick, and none that finishes later.
    pub fn run_to(&mut self, tick: u64) {
        let Machine { record, words, labels } = self;
        let answer = unsafe { jennydusk_run_to(record.as_mut_ptr(), record.len(), words.as_mut_ptr(), words.len(), labels.as_mut_ptr(), labels.len(), tick) };
        assert_eq!(answer, DONE, "a loaded record in whole memory is run");
    }

    pub fn listing(&self) -> Vec<u8> {
        let Machine { record, words, labels } = self;
        let mut output = vec![0; LISTING];
        let answer = unsafe { jennydusk_print(record.as_ptr(), record.len(), words.as_ptr(), words.len(), labels.as_ptr(), labels.len(), output.as_mut_ptr(), output.len()) };
        listed(answer, output).expect("the output is longer than any listing")
    }

    /// What a label sees, as a listing. Of the words those of a range, which has
    /// one at least, are lent as if they were all, and are counted from its start.
    pub fn listing_for(&self, label: u8, lent: Range<usize>) -> Vec<u8> {
        let mut record = self.record;
        record[place::SIZE] = lent.len() as u64;
        let mut output = vec![0; WITHOUT_WORDS + lent.len() * WORD_LINE];
        let (words, labels) = (&self.words[lent.clone()], &self.labels[lent]);
        let answer = unsafe { jennydusk_print_for(record.as_ptr(), record.len(), words.as_ptr(), words.len(), labels.as_ptr(), labels.len(), label, output.as_mut_ptr(), output.len()) };
        listed(answer, output).expect("the output is longer than such a listing")
    }
}

/// What a label sees of an image at a tick, as a listing.
#[rustfmt::skip]
pub fn view(text: &[u8], label: u8, tick: u64) -> Result<Vec<u8>, Refusal> {
    let (mut words, mut labels, mut output) = (vec![0; WORDS], vec![0; WORDS], vec![0; LISTING]);
    // As above, every pointer is that of a slice of the length beside it, and no two overlap.
    let answer = unsafe { jennydusk_view(text.as_ptr(), text.len(), label, tick, words.as_mut_ptr(), words.len(), labels.as_mut_ptr(), labels.len(), output.as_mut_ptr(), output.len()) };
    listed(answer, output)
}

/// Up to which tick nothing of what is hidden at a label can show there, for an
/// image and all that are alike at the label.
#[rustfmt::skip]
pub fn certify(label: u8, text: &[u8]) -> Result<Certificate, Refusal> {
    let (mut words, mut labels) = (vec![0; WORDS], vec![0; WORDS]);
    let mut buffer = [0; certificate::SPAN];
    // As above, every pointer is that of a slice of the length beside it, and no two overlap.
    let answer = unsafe { jennydusk_certify(label, text.as_ptr(), text.len(), words.as_mut_ptr(), words.len(), labels.as_mut_ptr(), labels.len(), buffer.as_mut_ptr(), buffer.len()) };
    let found = Certificate { cause: buffer[certificate::CAUSE], tick: buffer[certificate::BREAK_TICK], place: buffer[certificate::PLACE] as usize };
    if answer == DONE { Ok(found) } else { Err(refusal(answer)) }
}

/// The listing that a call has written at the start of its output.
fn listed(answer: u64, mut output: Vec<u8>) -> Result<Vec<u8>, Refusal> {
    if answer % NUMBERS != DONE {
        return Err(refusal(answer));
    }
    output.truncate((answer / NUMBERS) as usize);
    Ok(output)
}

fn refusal(answer: u64) -> Refusal {
    Refusal { number: (answer % NUMBERS) as u8, beside: (answer / NUMBERS) as usize }
}

/// What the record and the memory hold.
impl Machine {
    pub fn size(&self) -> usize {
        self.record[place::SIZE] as usize
    }

    pub fn limit(&self) -> u64 {
        self.record[place::LIMIT]
    }

    pub fn gate_count(&self) -> u64 {
        self.record[place::GATE_COUNT]
    }

    pub fn pc(&self) -> u32 {
        self.record[place::PC] as u32
    }

    pub fn pair(&self) -> Pair {
        pair(self.record[place::PC_LABEL], self.record[place::TIMING_LABEL])
    }

    pub fn clock(&self) -> u64 {
        self.record[place::CLOCK]
    }

    pub fn end(&self) -> u64 {
        self.record[place::END]
    }

    pub fn why(&self) -> u64 {
        self.record[place::WHY]
    }

    /// The open calls, the older first.
    pub fn calls(&self) -> Vec<Call> {
        let fields = self.record[place::CALLS..].chunks(place::CALL_SPAN).take(place::CALL_COUNT);
        fields.filter(|call| call[0] != 0).map(call).collect()
    }

    pub fn register(&self, number: usize) -> Cell {
        let label = self.record[place::LABELS + number] as u8;
        Cell { label, value: self.record[place::VALUES + number] as u32 }
    }

    /// A word below the size.
    pub fn word(&self, address: usize) -> Cell {
        Cell { label: self.labels[address], value: self.words[address] }
    }

    /// From the first to the last address at which two memories differ.
    pub fn differing_words(&self, other: &Machine) -> Range<usize> {
        if self.words == other.words && self.labels == other.labels {
            return 0..0;
        }
        let differs = |address: &usize| self.word(*address) != other.word(*address);
        let first = (0..WORDS).find(differs).unwrap_or(WORDS);
        let last = (first..WORDS).rfind(differs).unwrap_or(first);
        first..last + 1
    }
}

/// Questions that a step on a copy answers.
impl Machine {
    /// The tick at which the next step finishes.
    pub fn next_clock(&self) -> u64 {
        let mut copy = self.clone();
        copy.step();
        copy.clock()
    }

    /// Why the next fetch fails, or 0. At the error pc, outside a call, a failed
    /// fetch stalls, and a stall says why.
    pub fn why_fetch_fails(&self) -> u64 {
        let mut copy = self.alone();
        copy.record[place::ERROR_PC] = copy.record[place::PC];
        copy.step();
        copy.why()
    }

    /// Whether the next op is a branch, a jump or the end of an upcall that fails
    /// its check here: in an upcall each of these closes it.
    pub fn fails_in_an_upcall(&self) -> bool {
        let mut copy = self.alone();
        let Pair { pc_label, timing_label } = self.pair();
        let call = [UPCALL, 0, pc_label.into(), timing_label.into(), LONG_ENOUGH];
        copy.record[place::CALLS..][..place::CALL_SPAN].copy_from_slice(&call);
        copy.step();
        copy.calls().is_empty()
    }

    /// Whether the next op writes to register a or to a word, be it the value that
    /// is there already.
    pub fn writes(&self) -> bool {
        let a = ops::fields(self.words[self.pc() as usize]).a;
        self.writes_with_another_a(self.register(a).label)
    }

    /// Whether the next op would write to register a or to a word, were their
    /// labels the highest, to which all labels flow.
    pub fn writes_under_highest_labels(&self) -> bool {
        let mut copy = self.clone();
        let pc = self.pc() as usize;
        copy.labels[..self.size()].fill(HIGHEST);
        copy.labels[pc] = self.labels[pc];
        copy.writes_with_another_a(HIGHEST)
    }

    /// Whether the next op writes with another register of this label in a's place.
    /// Of two values that it may hold, one isn't what is written or written over,
    /// so that the write shows.
    fn writes_with_another_a(&self, label: u8) -> bool {
        [0, 1].into_iter().any(|value| self.clone().changes_with_another_a(Cell { label, value }))
    }

    /// The op names the other register nowhere else: all else is read as it was.
    fn changes_with_another_a(mut self, cell: Cell) -> bool {
        let pc = self.pc() as usize;
        let another = ops::unnamed_register(self.words[pc]);
        self.words[pc] = ops::with_a(self.words[pc], another);
        self.record[place::LABELS + another] = cell.label.into();
        self.record[place::VALUES + another] = cell.value.into();
        let words = self.words.clone();
        self.step();
        self.register(another).value != cell.value || self.words != words
    }

    /// The same state at tick 0 without open calls, and with all the time there is.
    fn alone(&self) -> Machine {
        let mut copy = self.clone();
        copy.record[place::CALLS..place::END].fill(0);
        copy.record[place::CLOCK] = 0;
        copy.record[place::LIMIT] = LONGEST_LIMIT;
        copy
    }
}

/// The label that sees all.
pub const HIGHEST: u8 = 15;
/// The greatest limit, and ticks that are more than any op's.
const LONGEST_LIMIT: u64 = 16_777_216;
const LONG_ENOUGH: u64 = 100;

fn pair(pc_label: u64, timing_label: u64) -> Pair {
    Pair { pc_label: pc_label as u8, timing_label: timing_label as u8 }
}

fn call(fields: &[u64]) -> Call {
    let [kind, return_pc, pc_label, timing_label, end_tick] = *fields else {
        unreachable!("a call has five words")
    };
    Call { kind, return_pc: return_pc as u32, pair: pair(pc_label, timing_label), end_tick }
}

/// Whether what has one label may go to where the other is.
pub fn flows(from: u8, to: u8) -> bool {
    // The call takes and gives values alone.
    unsafe { jennydusk_flows(from, to) }
}

/// Whether a pair is one that a machine or a gate may have.
pub fn is_valid_pair(pair: Pair) -> bool {
    // The call takes and gives values alone.
    unsafe { jennydusk_is_valid_pair(pair.pc_label, pair.timing_label) }
}

#[cfg(test)]
mod tests {
    use super::*;

    const HEADER: &str = include_str!("../../../include/jennydusk.h");
    /// The refusal of an M line whose pair isn't valid.
    const PAIR: u8 = 5;

    /// What the header gives as a name's value, without a comment.
    fn defined(name: &str) -> &'static str {
        let start = format!("#define JENNYDUSK_{name} ");
        let value = HEADER.lines().find_map(|line| line.strip_prefix(&start));
        let value = value.unwrap_or_else(|| panic!("the header has {name}"));
        value.split("/*").next().unwrap_or(value).trim()
    }

    #[test]
    fn the_layout_is_the_headers() {
        let numbers = [
            ("SPAN", place::SPAN),
            ("SIZE", place::SIZE),
            ("LIMIT", place::LIMIT),
            ("ERROR_PC", place::ERROR_PC),
            ("GATE_COUNT", place::GATE_COUNT),
            ("PC", place::PC),
            ("PC_LABEL", place::PC_LABEL),
            ("TIMING_LABEL", place::TIMING_LABEL),
            ("CLOCK", place::CLOCK),
            ("END", place::END),
            ("WHY", place::WHY),
            ("CERTIFICATE_SPAN", certificate::SPAN),
            ("CAUSE", certificate::CAUSE),
            ("BREAK_TICK", certificate::BREAK_TICK),
            ("PLACE", certificate::PLACE),
        ];
        for (name, place) in numbers {
            assert_eq!(defined(name), place.to_string(), "{name}");
        }
        let call = format!("({} + {} * (k))", place::CALLS, place::CALL_SPAN);
        assert_eq!(defined("CALL(k)"), call);
        assert_eq!(defined("VALUE(k)"), format!("({} + (k))", place::VALUES));
        assert_eq!(defined("LABEL(k)"), format!("({} + (k))", place::LABELS));
    }

    #[test]
    fn the_numbers_are_the_headers() {
        let numbers = [
            ("RUNNING", RUNNING),
            ("HALTED", HALTED),
            ("CLOCK_SPENT", CLOCK_SPENT),
            ("WHY_PC", WHY_PC),
            ("WHY_LABEL", WHY_LABEL),
            ("WHY_OP", WHY_OP),
            ("UPCALL", UPCALL),
            ("NO_BREAK", NO_BREAK),
            ("RELEASE", RELEASE),
            ("AT_LARGE", AT_LARGE),
            ("TIMED_FROM_OUTSIDE", TIMED_FROM_OUTSIDE),
            ("DONE", DONE),
            ("TICK", TICK.into()),
            ("HEX_RECORD", HEX_RECORD.into()),
            ("HEX_BYTE", HEX_BYTE.into()),
            ("GATE_PAIR", GATE_PAIR.into()),
            ("HIGHEST", HIGHEST.into()),
        ];
        for (name, number) in numbers {
            assert_eq!(defined(name), number.to_string(), "{name}");
        }
    }

    /// Why an image with a pair of its own and a gate with another one is refused.
    fn refusal_with(own: Pair, gate: Pair) -> Option<Refusal> {
        let fields = |pair: Pair| format!("{},{}", pair.pc_label, pair.timing_label);
        let text = format!("M,1,0,0,{},1\nG,0,{}\n", fields(own), fields(gate));
        Machine::load(text.as_bytes()).err()
    }

    #[test]
    fn the_loader_takes_valid_pairs_alone() {
        let lowest = pair(240, 240);
        for both in 0..=u16::MAX {
            let [pc_label, timing_label] = both.to_be_bytes();
            let pair = Pair { pc_label, timing_label };
            let refused =
                |number, beside| (!is_valid_pair(pair)).then_some(Refusal { number, beside });
            assert_eq!(refusal_with(pair, lowest), refused(PAIR, 1), "{pair:?}");
            assert_eq!(refusal_with(lowest, pair), refused(GATE_PAIR, 2), "{pair:?}");
        }
    }
}
