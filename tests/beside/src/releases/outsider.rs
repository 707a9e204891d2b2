//! The outsider: "a person trusted with the set j and shut out from the secrets of
//! the set s".

use interpreter::generator::labels::some_of;
use interpreter::generator::random::Random;
use interpreter::label::{is_subset, EVERYONE};
use interpreter::Label;

/// Both are sets of principals, one bit each.
#[derive(Clone, Copy, Debug, PartialEq, Eq)]
pub struct Outsider {
    /// The set j.
    pub trusted_with: u8,
    /// The set s.
    pub shut_out_from: u8,
}

impl Outsider {
    /// "where s isn't a subset of j"
    pub fn is_shut_out(self) -> bool {
        !is_subset(self.shut_out_from, self.trusted_with)
    }

    /// "A label is trusted when its i isn't within j"
    pub fn is_trusted_label(self, label: Label) -> bool {
        label.is_trusted(self.trusted_with)
    }

    /// "and secret when its c includes s."
    pub fn is_secret_label(self, label: Label) -> bool {
        label.is_secret(self.shut_out_from)
    }

    /// Any outsider: mostly trusted with something, and shut out from the secrets
    /// of one principal or of several.
    pub fn any(random: &mut Random) -> Outsider {
        let alone = member(random, EVERYONE);
        let others = if random.chance(50) { 0 } else { some_of(random, EVERYONE) };
        Outsider::shut_out_from(random, alone | others)
    }

    /// One who is shut out from the secrets of this set, which has a member.
    pub fn shut_out_from(random: &mut Random, set: u8) -> Outsider {
        let without = EVERYONE & !member(random, set);
        Outsider { trusted_with: some_of(random, without), shut_out_from: set }
    }

    /// A label that is not trusted: sound or not, secret or not, as it comes.
    pub fn untrusted_label(self, random: &mut Random) -> Label {
        let integrity = some_of(random, self.trusted_with);
        let confidentiality = match random.below(3) {
            0 => some_of(random, integrity),
            1 => self.shut_out_from | some_of(random, EVERYONE),
            _ => some_of(random, EVERYONE),
        };
        Label::new(integrity, confidentiality)
    }
}

/// One principal of a set that has some.
pub fn member(random: &mut Random, set: u8) -> u8 {
    let members: Vec<u8> = (0..u8::BITS).map(|bit| 1 << bit).filter(|one| set & one != 0).collect();
    random.pick(&members)
}
