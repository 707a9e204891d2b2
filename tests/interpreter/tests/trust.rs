//! Which labels are trusted and which are secret, for every label and every set,
//! worked out principal by principal.

use interpreter::label::EVERYONE;
use interpreter::Label;

/// The four principals by their bits; in a label's byte confidentiality has the
/// lower four bits and integrity the upper four.
const PRINCIPALS: [u32; 4] = [0, 1, 2, 3];
const UPPER: u32 = 4;

fn has(set: u8, bit: u32) -> bool {
    set >> bit & 1 == 1
}

/// Every label with every set of principals.
fn all() -> impl Iterator<Item = (u8, u8)> {
    (0..=u8::MAX).flat_map(|label| (0..=EVERYONE).map(move |set| (label, set)))
}

#[test]
fn a_label_is_trusted_when_some_principal_of_its_integrity_is_not_in_j() {
    for (label, j) in all() {
        let outside = PRINCIPALS.iter().any(|&bit| has(label, UPPER + bit) && !has(j, bit));
        assert_eq!(Label(label).is_trusted(j), outside, "label {label}, j {j}");
    }
}

#[test]
fn a_label_is_secret_when_each_principal_of_s_is_in_its_confidentiality() {
    for (label, s) in all() {
        let includes = PRINCIPALS.iter().all(|&bit| !has(s, bit) || has(label, bit));
        assert_eq!(Label(label).is_secret(s), includes, "label {label}, s {s}");
    }
}

#[test]
fn with_nobody_in_j_all_labels_of_some_integrity_are_trusted_and_with_everyone_none() {
    for label in (0..=u8::MAX).map(Label) {
        assert_eq!(label.is_trusted(0), label.0 > 15);
        assert!(!label.is_trusted(EVERYONE));
    }
}

#[test]
fn with_nobody_in_s_every_label_is_secret_and_with_everyone_those_of_all_four() {
    for label in (0..=u8::MAX).map(Label) {
        assert!(label.is_secret(0));
        assert_eq!(label.is_secret(EVERYONE), label.0 % 16 == 15);
    }
}

#[test]
fn the_words_at_one_outsider() {
    // Trusted with the first principal, shut out from the second's secrets.
    let (j, s) = (1, 2);
    let of = |label: Label| (label.is_trusted(j), label.is_secret(s));
    assert_eq!(of(Label::LOWEST), (true, false));
    assert_eq!(of(Label::HIGHEST), (false, true));
    assert_eq!(of(Label::new(2, 2)), (true, true));
    assert_eq!(of(Label::new(1, 1)), (false, false));
    assert_eq!(of(Label::new(3, 3)), (true, true));
    assert_eq!(of(Label::new(1, 14)), (false, true));
}
