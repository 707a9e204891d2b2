//! What a call is lent. Each buffer is longer than what is lent of it, on both
//! sides, so that a byte touched beyond shows.

use crate::calls::{Calls, Memory, Viewer};
use crate::certificate;
use crate::layout::{word_name, SPAN};
use interpreter::generator::hex::HexImage;
use interpreter::generator::random::Random;
use interpreter::machine::MAX_SIZE;
use interpreter::Label;
use std::ops::Range;

/// So many elements lie around what is lent.
const MARGIN: usize = 3;

/// A buffer of which a part is lent.
#[derive(Clone, Debug, PartialEq, Eq)]
pub struct Buffer<T> {
    pub all: Vec<T>,
    pub lent: Range<usize>,
}

impl<T: Copy> Buffer<T> {
    /// A buffer that lends all of `inside`, with a margin around it.
    pub fn around(inside: &[T], margin: T) -> Buffer<T> {
        let side = vec![margin; MARGIN];
        let all = [&side, inside, &side].concat();
        Buffer { all, lent: MARGIN..MARGIN + inside.len() }
    }

    /// Lends so many elements; further ones are put in behind where it has
    /// fewer.
    pub fn lend(&mut self, length: usize, filler: T) {
        let start = self.lent.start;
        self.all.resize(self.all.len().max(start + length + MARGIN), filler);
        self.lent = start..start + length;
    }

    /// Lends the same number of elements or fewer, from further back.
    pub fn lend_part(&mut self, part: Range<usize>) {
        let start = self.lent.start;
        self.lent = start + part.start..start + part.end;
    }

    pub fn get(&self) -> &[T] {
        &self.all[self.lent.clone()]
    }

    pub fn get_mut(&mut self) -> &mut [T] {
        &mut self.all[self.lent.clone()]
    }
}

impl<T: Copy + PartialEq + Into<u64>> Buffer<T> {
    /// The first place at which two buffers differ, counted from where the lent
    /// part begins, and what they hold there.
    fn differs(&self, other: &Buffer<T>) -> Option<(i64, u64, u64)> {
        let place = self.all.iter().zip(&other.all).position(|(a, b)| a != b)?;
        let from_lent = place as i64 - self.lent.start as i64;
        Some((from_lent, self.all[place].into(), other.all[place].into()))
    }
}

/// All that step, run and print are lent, and load, certify and view besides
/// their texts. The word for a line is there for a load from HEX.
#[derive(Clone, Debug, PartialEq, Eq)]
pub struct Lent {
    pub record: Buffer<u64>,
    pub words: Buffer<u32>,
    pub labels: Buffer<u8>,
    pub output: Buffer<u8>,
    pub certificate: Buffer<u64>,
    pub line: Buffer<u64>,
}

impl Lent {
    /// What a program of its own lends: the greatest memory, and output enough.
    pub fn whole() -> Lent {
        Lent {
            record: Buffer::around(&[0; SPAN], 0),
            words: Buffer::around(&[0; MAX_SIZE as usize], 0),
            labels: Buffer::around(&[0; MAX_SIZE as usize], 0),
            output: Buffer::around(&[0; 65_536], 0),
            certificate: Buffer::around(&[0; certificate::SPAN], 0),
            line: Buffer::around(&[0], 0),
        }
    }

    /// The record and just its memory; the margins hold what comes, but for that
    /// of the certificate, which is lent by those who certify.
    pub fn of(random: &mut Random, record: &[u64], words: &[u32], labels: &[u8]) -> Lent {
        Lent {
            record: Buffer::around(record, u64::from(random.bits())),
            words: Buffer::around(words, random.bits()),
            labels: Buffer::around(labels, random.bits() as u8),
            output: Buffer::around(&[], random.bits() as u8),
            certificate: Buffer::around(&[], 0),
            line: Buffer::around(&[0], 0),
        }
    }

    /// The first place at which something else stands, told in words.
    pub fn difference(&self, other: &Lent) -> Option<String> {
        let buffers = [
            ("record", self.record.differs(&other.record)),
            ("words", self.words.differs(&other.words)),
            ("labels", self.labels.differs(&other.labels)),
            ("output", self.output.differs(&other.output)),
            ("certificate", self.certificate.differs(&other.certificate)),
            ("line", self.line.differs(&other.line)),
        ];
        let (buffer, place, one, two) = buffers
            .into_iter()
            .find_map(|(buffer, differs)| differs.map(|(place, a, b)| (buffer, place, a, b)))?;
        let name = match usize::try_from(place) {
            Ok(word) if buffer == "record" => format!(" ({})", word_name(word)),
            _ => String::new(),
        };
        Some(format!("{buffer}, place {place}{name}: {one} and {two}"))
    }

    pub fn load(&mut self, calls: &dyn Calls, text: &[u8]) -> u64 {
        let Lent { record, words, labels, .. } = self;
        calls.load(text, words.get_mut(), labels.get_mut(), record.get_mut())
    }

    pub fn load_hex(&mut self, calls: &dyn Calls, image: &HexImage) -> u64 {
        let Lent { record, words, labels, line, .. } = self;
        let memory = Memory { words: words.get_mut(), labels: labels.get_mut() };
        calls.load_hex(image, memory, record.get_mut(), &mut line.get_mut()[0])
    }

    pub fn step(&mut self, calls: &dyn Calls) -> u64 {
        let Lent { record, words, labels, .. } = self;
        calls.step(record.get_mut(), words.get_mut(), labels.get_mut())
    }

    pub fn run(&mut self, calls: &dyn Calls) -> u64 {
        let Lent { record, words, labels, .. } = self;
        calls.run(record.get_mut(), words.get_mut(), labels.get_mut())
    }

    pub fn run_to(&mut self, calls: &dyn Calls, tick: u64) -> u64 {
        let Lent { record, words, labels, .. } = self;
        calls.run_to(record.get_mut(), words.get_mut(), labels.get_mut(), tick)
    }

    pub fn print(&mut self, calls: &dyn Calls) -> u64 {
        let Lent { record, words, labels, output, .. } = self;
        calls.print(record.get(), words.get(), labels.get(), output.get_mut())
    }

    pub fn print_for(&mut self, calls: &dyn Calls, viewer: Label) -> u64 {
        let Lent { record, words, labels, output, .. } = self;
        calls.print_for(record.get(), words.get(), labels.get(), viewer.0, output.get_mut())
    }

    pub fn view(&mut self, calls: &dyn Calls, text: &[u8], viewer: Viewer) -> u64 {
        let Lent { words, labels, output, .. } = self;
        let memory = Memory { words: words.get_mut(), labels: labels.get_mut() };
        calls.view(text, viewer, memory, output.get_mut())
    }

    pub fn certify(&mut self, calls: &dyn Calls, level: Label, text: &[u8]) -> u64 {
        let Lent { words, labels, certificate, .. } = self;
        calls.certify(level.0, text, words.get_mut(), labels.get_mut(), certificate.get_mut())
    }
}
