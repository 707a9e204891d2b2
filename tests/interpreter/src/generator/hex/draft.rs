//! Good images from HEX: those of texts, as far as a label and bytes can tell
//! them, which is the first line and words of one label.

use super::cut::{choose_longest, cut, Byte, LONGEST};
use super::record::{join, Choice, Line, Record, Style};
use super::HexImage;
use crate::draft::{join_lines, Draft};
use crate::generator::census::Census;
use crate::generator::compose::compose;
use crate::generator::random::Random;
use crate::hex::WORD_BYTES;
use crate::label::Label;
use crate::load::MAX_TEXT;
use crate::machine::{Register, MAX_SIZE};

/// So many of a hundred images are of a greater size than those of texts mostly
/// are; so many of such a size have every byte given, and so many every byte of
/// the greatest, one a record.
const LARGE_CHANCE: u32 = 4;
const DENSE_CHANCE: u32 = 5;
const FULL_CHANCE: u32 = 1;

/// An image before it is HEX.
#[derive(Clone, Debug)]
pub struct HexDraft {
    /// The same image as a text tells it.
    pub draft: Draft,
    pub label: Label,
    /// The end is the last.
    pub records: Vec<Record>,
    pub style: Style,
}

/// What good images must show.
pub const KINDS: [&str; 16] = [
    "a word with all of its bytes",
    "a word with some of its bytes",
    "a word given with value 0",
    "no byte at all",
    "every byte of the greatest size, one a record",
    "bytes in order",
    "bytes out of order",
    "a record of length 0",
    "a record of length 0 outside memory",
    "the end with an address",
    "digits of upper case",
    "digits of lower case",
    "digits of mixed case",
    "lines ended by LF and by CR LF",
    "a text above 65,535 bytes",
    "a label that isn't sound",
];

/// The places of a word's bytes, a bit each.
const ALL_PLACES: u32 = 0b1111;

/// Which bytes of words are given.
#[derive(Clone, Copy)]
enum Wanted {
    All,
    Some,
}

impl HexDraft {
    pub fn make(random: &mut Random) -> HexDraft {
        let mut draft = compose(random, &Census::new());
        draft.gates.clear();
        draft.registers = [Register::UNSET; 16];
        let label = choose_label(random, &draft);
        let rest = 100 - LARGE_CHANCE - DENSE_CHANCE - FULL_CHANCE;
        match random.weighted(&[rest, LARGE_CHANCE, DENSE_CHANCE, FULL_CHANCE]) {
            0 => {}
            1 => enlarge(random, &mut draft),
            2 => return HexDraft::dense(random, draft, label, LONGEST),
            _ => return HexDraft::dense(random, draft, label, 1),
        }
        HexDraft::of(random, draft, label)
    }

    /// An image of these words, of which one may lose some bytes or all: the
    /// draft then is what is left.
    pub fn of(random: &mut Random, mut draft: Draft, label: Label) -> HexDraft {
        let bytes = choose_bytes(random, &mut draft, label);
        let longest = choose_longest(random);
        let records = cut(random, &bytes, longest);
        HexDraft { draft, label, records, style: Style::any(random) }
    }

    /// An image of just these words, each of this label or unset.
    pub fn exactly(random: &mut Random, draft: Draft, label: Label) -> HexDraft {
        let words = draft.words.iter().enumerate().filter(|(_, word)| **word != Register::UNSET);
        let given = words.flat_map(|(address, word)| {
            // A word of value 0 has its label by a byte that is 0.
            let places = without_zeros(random, word.value).max(1);
            bytes_at(address, &chosen(word.value, places))
        });
        let bytes: Vec<Byte> = given.collect();
        let longest = choose_longest(random);
        let records = cut(random, &bytes, longest);
        HexDraft { draft, label, records, style: Style::any(random) }
    }

    /// Every byte of the greatest size is given, or of another one where records
    /// may be long.
    fn dense(random: &mut Random, mut draft: Draft, label: Label, longest: usize) -> HexDraft {
        let is_greatest = longest == 1 || random.chance(50);
        let size = if is_greatest { MAX_SIZE } else { random.between(250, MAX_SIZE) };
        let word = |_| Register { value: random.bits(), label };
        draft.words = (0..size).map(word).collect();
        let bytes = draft.words.iter().flat_map(|word| word.value.to_le_bytes());
        let bytes: Vec<Byte> = bytes.enumerate().collect();
        let records = cut(random, &bytes, longest);
        HexDraft { draft, label, records, style: Style::any(random) }
    }

    /// The first line of its text, with its LF.
    pub fn text(&self) -> Vec<u8> {
        join_lines(&self.draft.lines()[..1])
    }

    pub fn lines(&self, random: &mut Random) -> Vec<Line> {
        self.records.iter().map(|record| self.style.line(random, record)).collect()
    }

    pub fn image(&self, random: &mut Random) -> HexImage {
        HexImage { text: self.text(), hex: join(&self.lines(random)), label: self.label }
    }

    /// How many bytes of each word are given.
    fn given(&self) -> Vec<usize> {
        let mut given = vec![0; self.draft.words.len()];
        let data = self.records.iter().filter(|record| record.gives());
        let bytes = data.flat_map(|record| (record.address.into()..).zip(&record.data));
        bytes.for_each(|(address, _): (usize, _)| given[address / WORD_BYTES] += 1);
        given
    }

    /// What the image shows, of the kinds above.
    pub fn kinds(&self, hex: &[u8]) -> Vec<&'static str> {
        let given = self.given();
        let bytes: usize = given.iter().sum();
        let (end, data) = self.records.split_last().expect("the end is there");
        let (data, empty): (Vec<_>, Vec<_>) = data.iter().partition(|record| record.gives());
        let is_outside = |record: &&Record| usize::from(record.address) >= WORD_BYTES * given.len();
        let is_zero = |(word, count): (&Register, &usize)| *count > 0 && word.value == 0;
        let is_sorted = data.is_sorted_by_key(|record| record.address);
        let is_met = [
            given.contains(&WORD_BYTES),
            given.iter().any(|count| (1..WORD_BYTES).contains(count)),
            self.draft.words.iter().zip(&given).any(is_zero),
            bytes == 0,
            bytes == WORD_BYTES * MAX_SIZE as usize && data.len() == bytes,
            data.len() > 1 && is_sorted,
            !is_sorted,
            !empty.is_empty(),
            empty.iter().any(is_outside),
            end.address != 0,
            self.style.case == Choice::First,
            self.style.case == Choice::Second,
            self.style.case == Choice::Mixed,
            self.style.end == Choice::Mixed && data.len() > 1,
            hex.len() > MAX_TEXT,
            !self.label.is_sound(),
        ];
        let met = KINDS.into_iter().zip(is_met);
        met.filter(|(_, is_met)| *is_met).map(|(name, _)| name).collect()
    }
}

/// More words than a text's image mostly has, some of them set.
fn enlarge(random: &mut Random, draft: &mut Draft) {
    let size = if random.chance(50) { MAX_SIZE } else { random.between(250, MAX_SIZE) };
    let (first, dense) = (draft.words.len(), random.pick(&[5, 50, 100]));
    draft.words.resize(first.max(size as usize), Register::UNSET);
    for word in &mut draft.words[first..] {
        word.value = if random.chance(dense) { random.bits() } else { 0 };
    }
}

/// A label for what is given: that of the pc, so that the program runs; or the
/// lowest, or any.
fn choose_label(random: &mut Random, draft: &Draft) -> Label {
    match random.below(4) {
        0 | 1 => draft.pair.pc,
        2 => Label::LOWEST,
        _ => Label(random.bits() as u8),
    }
}

/// The bytes to give: those of the words that are set, all or some of them. What
/// is not given is taken from the draft.
fn choose_bytes(random: &mut Random, draft: &mut Draft, label: Label) -> Vec<Byte> {
    let share = random.pick(&[0, 60, 90, 100, 100, 100]);
    let wanted = random.pick(&[Wanted::All, Wanted::Some]);
    let mut bytes = Vec::new();
    for (address, word) in draft.words.iter_mut().enumerate() {
        let is_set = *word != Register::UNSET && random.chance(share);
        let given = if is_set { word_bytes(random, word.value, wanted) } else { Vec::new() };
        *word = word_of(&given, label);
        bytes.extend(bytes_at(address, &given));
    }
    bytes
}

/// All of a word's bytes by their place in it; or some, in a few words any.
fn word_bytes(random: &mut Random, value: u32, wanted: Wanted) -> Vec<Byte> {
    let places = match wanted {
        Wanted::All => ALL_PLACES,
        Wanted::Some if random.chance(20) => random.between(1, ALL_PLACES),
        Wanted::Some => without_zeros(random, value),
    };
    chosen(value, places)
}

/// The places of a word, a bit each, without some of those whose byte is 0: what
/// is missing is 0, so that the word is the same.
fn without_zeros(random: &mut Random, value: u32) -> u32 {
    let zeros = (0..WORD_BYTES).filter(|place| value.to_le_bytes()[*place] == 0);
    let left_out: u32 = zeros.map(|place| 1 << place).sum();
    ALL_PLACES & !(left_out & random.bits())
}

/// The bytes of a word at these places.
fn chosen(value: u32, places: u32) -> Vec<Byte> {
    let bytes = value.to_le_bytes().into_iter().enumerate();
    bytes.filter(|(place, _)| places >> place & 1 == 1).collect()
}

/// Bytes of a word, counted from the start of memory.
fn bytes_at(word: usize, bytes: &[Byte]) -> Vec<Byte> {
    bytes.iter().map(|(place, byte)| (WORD_BYTES * word + place, *byte)).collect()
}

/// "A given label goes on every word with a byte given; its missing bytes are 0.
/// ... Other words have value 0 and the lowest label".
fn word_of(given: &[Byte], label: Label) -> Register {
    if given.is_empty() {
        return Register::UNSET;
    }
    let value = given.iter().map(|(place, byte)| u32::from(*byte) << (8 * place)).sum();
    Register { value, label }
}
