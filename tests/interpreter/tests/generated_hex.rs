//! Generated images from HEX: the generator keeps its word.

use interpreter::draft::Draft;
use interpreter::generator::hex::damage::{damage, plans, Damaged};
use interpreter::generator::hex::draft::{HexDraft, KINDS};
use interpreter::generator::hex::HexImage;
use interpreter::generator::random::Random;
use interpreter::{load_hex, Machine, Refusal};
use std::collections::BTreeSet;

/// What was in the memory before.
const WORD: u32 = 7;
const LABEL: u8 = 8;

/// A load into memory of this many words: the answer, and what it leaves.
type Left = (Result<Machine, Refusal>, Vec<u32>, Vec<u8>);

fn load(image: &HexImage, size: usize) -> Left {
    let (mut words, mut labels) = (vec![WORD; size], vec![LABEL; size]);
    let HexImage { text, hex, label } = image;
    let answer = load_hex(text, hex, *label, &mut words, &mut labels);
    (answer, words, labels)
}

/// What a load of the same image as a text leaves.
fn load_text(draft: &Draft) -> Left {
    let (machine, words, labels) = draft.loaded();
    (Ok(machine), words, labels)
}

#[test]
fn a_good_image_is_that_of_its_text() {
    let mut random = Random::new(1);
    for _ in 0..1_000 {
        let draft = HexDraft::make(&mut random);
        let image = draft.image(&mut random);
        assert_eq!(load(&image, draft.draft.words.len()), load_text(&draft.draft));
    }
}

#[test]
fn good_images_meet_every_kind_and_have_records_of_every_length() {
    let mut random = Random::new(2);
    let (mut kinds, mut lengths) = (BTreeSet::new(), BTreeSet::new());
    for _ in 0..2_000 {
        let draft = HexDraft::make(&mut random);
        kinds.extend(draft.kinds(&draft.image(&mut random).hex));
        lengths.extend(draft.records.iter().map(|record| record.length));
    }
    assert_eq!(kinds, BTreeSet::from(KINDS));
    assert_eq!(lengths.len(), 256);
}

#[test]
fn damaged_images_get_the_refusal_that_is_due_and_leave_the_memory() {
    let mut random = Random::new(3);
    for plan in plans().repeat(20) {
        let Damaged { image, refusal, .. } = damage(&mut random, plan);
        let (answer, words, labels) = load(&image, 2_048);
        let text = String::from_utf8_lossy(&image.text);
        let hex = String::from_utf8_lossy(&image.hex);
        assert_eq!(answer, Err(refusal), "{plan:?}\n{text}\n{hex}");
        assert!(words == [WORD; 2_048] && labels == [LABEL; 2_048]);
    }
}

#[test]
fn the_same_seed_gives_the_same_images() {
    let image = |seed| HexDraft::make(&mut Random::new(seed)).image(&mut Random::new(seed)).hex;
    assert_eq!(image(7), image(7));
    assert_ne!(image(7), image(8));
}
