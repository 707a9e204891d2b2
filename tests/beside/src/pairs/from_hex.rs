//! Making a pair of which one machine, or both, are loaded from HEX.
//!
//! HEX tells no register and no gate, and words of one label. So what is hidden
//! in such a pair is what its HEX gives, and where the pc is hidden, the place and
//! the pair.

use super::image::Image;
use super::make::{change, change_control, Pair, LONGEST};
use super::seen::is_within;
use interpreter::draft::Draft;
use interpreter::generator::hex::draft::HexDraft;
use interpreter::generator::labels::not_below;
use interpreter::generator::random::Random;
use interpreter::{Label, Register};

/// For so many other pairs there is one from HEX.
pub const EVERY: u64 = 8;

/// What must come up.
pub const EXPECTED: [&str; 5] = [
    ONE,
    BOTH,
    "pairs loaded from HEX that differ in words",
    "pairs loaded from HEX that differ in place or pair",
    "pairs loaded from HEX under two labels",
];

const ONE: &str = "pairs of which one is loaded from HEX and one from a text";
const BOTH: &str = "pairs of which both are loaded from HEX";

/// So many labels are tried for one that hides what is given.
const TRIES: u32 = 12;

/// A pair, and what each of its machines is loaded from.
pub struct HexPair {
    pub pair: Pair,
    pub images: [Image; 2],
}

impl HexPair {
    pub fn make(random: &mut Random) -> HexPair {
        let mut one = HexDraft::make(random);
        one.draft.limit = one.draft.limit.min(LONGEST);
        let level = choose_level(random, &one);
        let mut other = one.draft.clone();
        other.words.iter_mut().for_each(|word| change(random, level, word));
        if !is_within(one.draft.pair.pc, level) && random.chance(70) {
            change_control(random, level, &mut other);
        }
        let hex = Image::Hex(one.image(random));
        let text = Image::Text(one.draft.text());
        let images = match random.below(4) {
            0 => [hex, Image::Text(other.text())],
            1 => [text, other_hex(random, level, &mut other, one.label)],
            _ => [hex, other_hex(random, level, &mut other, one.label)],
        };
        HexPair { pair: Pair { level, one: one.draft, other }, images }
    }

    /// What is met by the pair.
    pub fn kinds(&self) -> Vec<&'static str> {
        let Pair { one, other, .. } = &self.pair;
        let is_both = self.images.iter().all(|image| matches!(image, Image::Hex(_)));
        let mut words = one.words.iter().zip(&other.words);
        let control = |draft: &Draft| (draft.pc, draft.pair);
        let is_met = [
            !is_both,
            is_both,
            one.words.iter().ne(&other.words),
            control(one) != control(other),
            is_both && words.any(|(a, b)| a.label != b.label),
        ];
        let met = EXPECTED.into_iter().zip(is_met);
        met.filter(|(_, is_met)| *is_met).map(|(name, _)| name).collect()
    }
}

/// The HEX of the other image: what its words hold, under one label that is
/// hidden where that of the first is.
fn other_hex(random: &mut Random, level: Label, other: &mut Draft, label: Label) -> Image {
    let another = not_below(random, level);
    let is_free = !is_within(label, level) && !is_within(another, level);
    let label = if is_free && random.chance(50) { another } else { label };
    for word in other.words.iter_mut().filter(|word| **word != Register::UNSET) {
        word.label = label;
    }
    Image::Hex(HexDraft::exactly(random, other.clone(), label).image(random))
}

/// A label that hides what is given, mostly; or one that hides the pc, or any.
fn choose_level(random: &mut Random, one: &HexDraft) -> Label {
    let hidden = if random.chance(50) { one.label } else { one.draft.pair.pc };
    for _ in 0..TRIES {
        let level = Label(random.bits() as u8);
        if !is_within(hidden, level) {
            return level;
        }
    }
    Label(random.bits() as u8)
}
