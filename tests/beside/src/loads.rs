//! Trials of load and certify: good and damaged texts into memory and record or
//! certificate buffers of every length, and many files one after the other into
//! the same buffers. What is lent to a load from HEX is chosen here too.

use crate::bases::LONGEST;
use crate::buffers::Lent;
use crate::calls::{answer, Calls, MEMORY_SHORT, SHORT_BUFFER};
use crate::certificate;
use crate::layout::{at, SPAN};
use crate::trials::{Call, Due, Lending, Trials, LENDINGS};
use interpreter::certificate::cause;
use interpreter::draft::Draft;
use interpreter::generator::census::Census;
use interpreter::generator::compose::compose;
use interpreter::generator::damage::{damage, PLANS};
use interpreter::generator::random::Random;
use interpreter::hex::{BAD_BYTE, BAD_RECORD};
use interpreter::load::BAD_GATE_PAIR;
use interpreter::Label;
use std::ops::RangeInclusive;

/// A call that loads an image and has a buffer to write into: load its record's,
/// certify its certificate's.
#[derive(Clone, Copy)]
pub struct Loading {
    call: &'static str,
    buffer: &'static str,
    span: usize,
    /// The refusals that come before 6, and those that come after it.
    early: &'static [u64],
    late: &'static [u64],
}

/// Those of a text's length and first line.
const OF_FIRST_LINE: &[u64] = &[1, 2, 3, 5];

/// Those of the lines behind it, 9 for an R line for register 0, 13 for a gate of
/// an invalid pair.
const OF_LATER_LINES: &[u64] = &[2, 3, 4, 9, BAD_GATE_PAIR as u64];

/// That of an M text's second line, and those of the records of HEX.
const OF_RECORDS: &[u64] = &[4, BAD_RECORD as u64, BAD_BYTE as u64];

pub const LOAD: Loading = Loading {
    call: "load",
    buffer: "record",
    span: SPAN,
    early: OF_FIRST_LINE,
    late: OF_LATER_LINES,
};
pub const CERTIFY: Loading =
    Loading { call: "certify", buffer: "certificate", span: certificate::SPAN, ..LOAD };
pub const LOAD_HEX: Loading = Loading { call: "load from HEX", late: OF_RECORDS, ..LOAD };

/// Every so many texts are good ones. The plans take turns among all the turns,
/// so that their number must not be a multiple of it, or some never come up.
const GOOD_EVERY: usize = 3;
const _: () = assert!(!PLANS.len().is_multiple_of(GOOD_EVERY));

/// Few runs try a release: in so many of a hundred turns with a good text, up to so
/// many are tried for one to certify that does.
const RELEASING_CHANCE: u32 = 10;
const RELEASING_TRIES: u32 = 12;

impl Loading {
    /// A kind of trial, with the call's name.
    fn kind(self, what: &str) -> String {
        format!("{}, {what}", self.call)
    }

    /// How long its buffer is, by name.
    fn lengths(self) -> [(String, usize); 4] {
        let Loading { buffer, span, .. } = self;
        [
            (format!("just the {buffer}"), span),
            (format!("a longer {buffer}"), span + 2),
            (format!("a {buffer} short by one"), span - 1),
            (format!("no {buffer}"), 0),
        ]
    }

    /// All that must come up. The orders are those between two refusals that such a
    /// call can show and the program can't, for it always lends enough.
    pub fn expected(self) -> Vec<String> {
        let mut names: Vec<String> =
            ["255 before 6", "255 before the text"].map(str::to_string).to_vec();
        names.extend(self.early.iter().map(|number| format!("{number} before 6")));
        names.extend(self.late.iter().map(|number| format!("6 before {number}")));
        names.extend(LENDINGS.iter().map(|lending| lending.name.to_string()));
        names.extend(self.lengths().map(|(name, _)| name));
        let numbers =
            self.early.iter().chain(self.late).copied().chain([0, MEMORY_SHORT, SHORT_BUFFER]);
        names.extend(numbers.map(|number| format!("answer {number}")));
        names.iter().map(|name| self.kind(name)).collect()
    }

    /// Buffers of some lengths for an image of this size, and the number and the line
    /// that are due. A short buffer comes before every refusal of the image.
    pub fn lend(
        self,
        trials: &mut Trials,
        random: &mut Random,
        size: usize,
        refused: Refused,
    ) -> (Lent, (u64, u64)) {
        let (length_name, length) = &self.lengths()[random.weighted(&[12, 4, 2, 1])];
        let lending = if random.chance(40) { LENDINGS[0] } else { random.pick(&LENDINGS) };
        let mut lent = dirty(random, *length, size);
        lending.apply(random, &mut lent, size);
        let is_short = *length < self.span;
        let (due, line) = if is_short { (SHORT_BUFFER, 0) } else { refused.within(lending) };
        let tally = &mut trials.tally;
        tally.count(&self.kind(length_name));
        tally.count(&self.kind(lending.name));
        tally.count(&self.kind(&format!("answer {due}")));
        let short_buffer = due == SHORT_BUFFER;
        tally.count_if(short_buffer && lending.is_short(), &self.kind("255 before 6"));
        tally.count_if(short_buffer && refused.number > 0, &self.kind("255 before the text"));
        if due != refused.number && due == MEMORY_SHORT && refused.number > 0 {
            tally.count(&self.kind(&format!("6 before {}", refused.number)));
        }
        if due == refused.number && lending.is_short() {
            tally.count(&self.kind(&format!("{due} before 6")));
        }
        (lent, (due, line))
    }
}

/// The refusal, number and line, that an image gets in memory of enough words, 0
/// and 0 where it is accepted; and whether it comes before 6.
#[derive(Clone, Copy)]
pub struct Refused {
    pub number: u64,
    pub line: u64,
    pub is_early: bool,
}

impl Refused {
    /// The refusal that is due in memory that is lent so. 1, and 2, 3 and 5 of the
    /// first line come before 6, which comes before those of later lines.
    pub fn within(self, lending: Lending) -> (u64, u64) {
        if lending.is_short() && !self.is_early {
            return (MEMORY_SHORT, 1);
        }
        (self.number, self.line)
    }
}

/// A text with the refusal, number and line, that it gets in memory of enough
/// words; 0 and 0 where it is accepted.
pub struct Text {
    pub bytes: Vec<u8>,
    pub number: u64,
    pub line: u64,
}

impl Text {
    /// One damaged by each plan in turn.
    pub fn damaged(random: &mut Random, turn: usize) -> Text {
        let damaged = damage(random, PLANS[turn % PLANS.len()]);
        let refusal = damaged.refusal;
        Text { bytes: damaged.text, number: refusal.number.into(), line: refusal.line }
    }

    pub fn refused(&self) -> Refused {
        let Text { number, line, .. } = *self;
        Refused { number, line, is_early: number > 0 && line <= 1 }
    }
}

/// A good text, or one damaged by each plan in turn.
fn text(random: &mut Random, turn: usize) -> Text {
    if turn.is_multiple_of(GOOD_EVERY) {
        let bytes = compose(random, &Census::new()).text();
        return Text { bytes, number: 0, line: 0 };
    }
    Text::damaged(random, turn)
}

/// A text to certify: such a one, or a good one that tries a release at its clock
/// label.
fn text_to_certify(random: &mut Random, turn: usize) -> Text {
    let is_releasing = turn.is_multiple_of(GOOD_EVERY) && random.chance(RELEASING_CHANCE);
    let tries = if is_releasing { RELEASING_TRIES } else { 0 };
    let drafts = (0..tries).map(|_| compose(random, &Census::new()));
    let releasing = drafts.filter(tries_release).map(|draft| draft.text()).next();
    match releasing {
        Some(bytes) => Text { bytes, number: 0, line: 0 },
        None => text(random, turn),
    }
}

/// Whether an image's certificate at its clock label is an attempt to release.
fn tries_release(draft: &Draft) -> bool {
    let (mut machine, mut words, labels) = draft.loaded();
    let certificate = machine.certify(draft.pair.timing, &mut words, &labels);
    certificate.is_ok_and(|certificate| certificate.cause == cause::RELEASE)
}

/// A number of the first line, by its field, if it is one of this range.
fn first_line(text: &[u8], field: usize, range: RangeInclusive<usize>) -> Option<usize> {
    let field = text.split(|&byte| byte == b',' || byte == b'\n').nth(field)?;
    let number = std::str::from_utf8(field).ok()?.parse().ok()?;
    range.contains(&number).then_some(number)
}

/// The size that the first line names, if it is one that memory is made for.
pub fn size_of(text: &[u8]) -> usize {
    first_line(text, 1, 1..=2_048).unwrap_or(8)
}

/// The clock label that the first line names, at which the loaded state breaks
/// nothing; or any label.
fn choose_level(random: &mut Random, text: &[u8]) -> Label {
    let any = Label(random.bits() as u8);
    let timing = first_line(text, 5, 0..=255).map(|label| Label(label as u8));
    timing.filter(|_| random.chance(60)).unwrap_or(any)
}

/// Buffers with what an earlier use has left in them: a record's and a
/// certificate's of this length, and memory.
pub fn dirty(random: &mut Random, length: usize, size: usize) -> Lent {
    let buffer: Vec<u64> = (0..length).map(|_| random.bits().into()).collect();
    let words: Vec<u32> = (0..size).map(|_| random.bits()).collect();
    let labels: Vec<u8> = (0..size).map(|_| random.bits() as u8).collect();
    let mut lent = Lent::of(random, &buffer, &words, &labels);
    lent.certificate = lent.record.clone();
    lent
}

/// One load.
pub fn try_load(trials: &mut Trials, random: &mut Random, turn: usize) {
    let text = text(random, turn);
    let (lent, (number, line)) = LOAD.lend(trials, random, size_of(&text.bytes), text.refused());
    let name = format!("load of\n{}", String::from_utf8_lossy(&text.bytes));
    let make = |calls: &dyn Calls, lent: &mut Lent| lent.load(calls, &text.bytes);
    trials.compare(&name, make, &lent, Due::Answer(answer(number, line)));
}

/// One certificate, at any label: its cause, where the text is not refused.
pub fn try_certify(trials: &mut Trials, random: &mut Random, turn: usize) -> Option<u64> {
    let text = text_to_certify(random, turn);
    let (lent, (number, line)) = CERTIFY.lend(trials, random, size_of(&text.bytes), text.refused());
    let level = choose_level(random, &text.bytes);
    let name = format!("certify at {} of\n{}", level.0, String::from_utf8_lossy(&text.bytes));
    let make = |calls: &dyn Calls, lent: &mut Lent| lent.certify(calls, level, &text.bytes);
    let left = trials.compare(&name, make, &lent, Due::Answer(answer(number, line)));
    (number == 0).then(|| left.certificate.get()[certificate::at::CAUSE])
}

/// One cabinet, many files: each is loaded, stepped, run and printed in the
/// buffers that the files before it have left, refused ones between them, and
/// now and then the same file again.
pub fn try_cabinet(trials: &mut Trials, random: &mut Random, files: usize) {
    let mut lent = dirty(random, SPAN, 2_048);
    lent.output.lend(65_536, 0);
    let mut last = text(random, 0);
    for turn in 0..files {
        if random.chance(80) {
            last = text(random, turn);
        }
        let make = |calls: &dyn Calls, lent: &mut Lent| lent.load(calls, &last.bytes);
        lent = trials.compare("load in a cabinet", make, &lent, Due::Number(last.number));
        let limit = lent.record.get()[at::LIMIT];
        if last.number == 0 && limit <= LONGEST {
            lent = trials.try_call("a file in a cabinet", Call::Step, &lent, Due::Number(0));
            lent = trials.try_call("a file in a cabinet", Call::Run, &lent, Due::Number(0));
            lent = trials.try_call("a file in a cabinet", Call::Print, &lent, Due::Number(0));
        }
    }
}
