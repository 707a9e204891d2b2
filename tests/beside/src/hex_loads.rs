//! Trials of loads from HEX: good and damaged images into memory and record
//! buffers of every length, and good ones beside the same image as a text.

use crate::buffers::{Buffer, Lent};
use crate::calls::{Calls, SHORT_BUFFER};
use crate::library::Library;
use crate::loads::{size_of, Refused, LOAD_HEX};
use crate::trials::{Due, Trials};
use crate::verdict::behind_difference;
use interpreter::generator::hex::damage::{damage, name, plans, Damaged, Plan};
use interpreter::generator::hex::draft::{HexDraft, KINDS};
use interpreter::generator::hex::HexImage;
use interpreter::generator::random::Random;
use interpreter::load::MAX_TEXT;

/// Every so many images are good ones; the plans take turns among the others.
const GOOD_EVERY: usize = 2;

/// So much of a text is shown where something differs.
const SHOWN: usize = 2_000;

/// A record's length is a byte.
const LENGTHS: usize = 256;

const ALL_LENGTHS: &str = "good, records of every length, 0 to 255, that far";
const SAME_AS_TEXT: &str = "good, the same record and memory as its text";
const LONG_DAMAGED: &str = "damaged, a text above 65,535 bytes";

/// An image from HEX, and what is known of it.
pub struct HexTrial {
    pub image: HexImage,
    pub refused: Refused,
    /// The same image as a text, where it is a good one.
    text: Option<Vec<u8>>,
}

/// Makes images one after the other, and tells what they are.
pub struct Source {
    plans: Vec<Plan>,
    turn: usize,
    lengths: [bool; LENGTHS],
}

/// All that must come up.
pub fn expected() -> Vec<String> {
    let mut names = LOAD_HEX.expected();
    names.extend(KINDS.map(|kind| format!("good, {kind}")));
    names.extend([ALL_LENGTHS, SAME_AS_TEXT, LONG_DAMAGED].map(str::to_string));
    names.extend(plans().into_iter().map(name));
    names
}

impl Source {
    pub fn new() -> Source {
        Source { plans: plans(), turn: 0, lengths: [false; LENGTHS] }
    }

    /// A good image, or one damaged by each plan in turn.
    pub fn next(&mut self, trials: &mut Trials, random: &mut Random) -> HexTrial {
        let (place, kind) = (self.turn / GOOD_EVERY, self.turn % GOOD_EVERY);
        self.turn += 1;
        if kind == 0 {
            return self.good(trials, random);
        }
        let damaged = damage(random, self.plans[place % self.plans.len()]);
        trials.tally.count(&name(damaged.plan));
        trials.tally.count_if(damaged.image.hex.len() > MAX_TEXT, LONG_DAMAGED);
        HexTrial::damaged(damaged)
    }

    fn good(&mut self, trials: &mut Trials, random: &mut Random) -> HexTrial {
        let draft = HexDraft::make(random);
        let image = draft.image(random);
        let kinds = draft.kinds(&image.hex);
        kinds.iter().for_each(|kind| trials.tally.count(&format!("good, {kind}")));
        draft.records.iter().for_each(|record| self.lengths[usize::from(record.length)] = true);
        trials.tally.count_if(self.lengths.iter().all(|is_met| *is_met), ALL_LENGTHS);
        HexTrial::good(&draft, image)
    }
}

impl Default for Source {
    fn default() -> Source {
        Source::new()
    }
}

impl HexTrial {
    /// A good image, as HEX and as the text of the same draft.
    pub fn good(draft: &HexDraft, image: HexImage) -> HexTrial {
        let refused = Refused { number: 0, line: 0, is_early: false };
        HexTrial { image, refused, text: Some(draft.draft.text()) }
    }

    fn damaged(Damaged { image, refusal, .. }: Damaged) -> HexTrial {
        // What is refused at the M text's first line, or for its length.
        let is_early = matches!(refusal.number, 1 | 2 | 3 | 5);
        let refused = Refused { number: refusal.number.into(), line: refusal.line, is_early };
        HexTrial { image, refused, text: None }
    }

    /// Both texts, for a reader.
    pub fn shown(&self) -> String {
        let shown = |text: &[u8]| {
            String::from_utf8_lossy(&text[..text.len().min(SHOWN)]).escape_debug().to_string()
        };
        let HexImage { text, hex, label } = &self.image;
        format!("HEX at label {}\n{}\nbehind\n{}\n", label.0, shown(hex), shown(text))
    }

    /// One load in buffers of some lengths. The word for the line is written by
    /// every load but one whose record's buffer is short; a refusal leaves all
    /// else.
    pub fn try_load(&self, trials: &mut Trials, random: &mut Random) {
        let size = size_of(&self.image.text);
        let (mut lent, (number, line)) = LOAD_HEX.lend(trials, random, size, self.refused);
        lent.line = Buffer::around(&[random.bits().into()], random.bits().into());
        let mut refused = lent.clone();
        if number != SHORT_BUFFER {
            refused.line.get_mut()[0] = line;
        }
        let left = |answer: u64, after: &Lent| match answer {
            0 => after.line == refused.line,
            _ => *after == refused,
        };
        let make = |calls: &dyn Calls, lent: &mut Lent| lent.load_hex(calls, &self.image);
        let name = format!("load of {}", self.shown());
        let after = trials.compare_leaving(&name, make, &lent, Due::Answer(number), left);
        if number == 0 {
            self.try_text(trials, lent, after);
        }
    }

    /// The text of the same image, in the same buffers, leaves the same.
    fn try_text(&self, trials: &mut Trials, mut before: Lent, mut after: Lent) {
        let text = self.text.as_deref().expect("an image that is accepted is good");
        after.line = before.line.clone();
        if before.load(&Library, text) == 0 && before == after {
            trials.passed += 1;
            trials.tally.count(SAME_AS_TEXT);
        } else {
            trials.failed += 1;
            println!("load of its text leaves something else: {:?}", before.difference(&after));
            println!("{}", self.shown());
            behind_difference();
        }
    }
}
