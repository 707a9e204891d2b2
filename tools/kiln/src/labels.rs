//! Labels as texts: a number, or two sets of owners, trust and secrecy. What
//! flows to what is the library's to say.

use crate::source;

/// All four principals.
pub const ALL: u8 = 15;
const TRUST: u8 = 16;
/// The lowest label: what has no line has it.
pub const LOWEST: u8 = label(ALL, 0);
/// The greatest label, as a number.
pub const GREATEST: u8 = u8::MAX;

/// A label from its two sets, one bit for each principal.
pub const fn label(trust: u8, secrecy: u8) -> u8 {
    trust * TRUST + secrecy
}

/// The owners that a source names, each with its principal's bit.
#[derive(Default)]
pub struct Owners {
    named: Vec<(String, u8)>,
}

/// Why an owner can't be named.
#[derive(Debug, PartialEq, Eq)]
pub enum NoOwner {
    NotOneBit,
    NameTaken,
    BitTaken(String),
}

impl Owners {
    pub fn name(&mut self, name: &str, bit: i64) -> Result<(), NoOwner> {
        let bit = u8::try_from(bit).ok().filter(|bit| bit.is_power_of_two() && *bit <= ALL);
        let bit = bit.ok_or(NoOwner::NotOneBit)?;
        if self.bit(name).is_some() {
            return Err(NoOwner::NameTaken);
        }
        if let Some((other, _)) = self.named.iter().find(|(_, taken)| *taken == bit) {
            return Err(NoOwner::BitTaken(other.clone()));
        }
        self.named.push((name.to_string(), bit));
        Ok(())
    }

    pub fn bit(&self, name: &str) -> Option<u8> {
        self.named.iter().find(|(known, _)| known == name).map(|(_, bit)| *bit)
    }
}

/// A label outside a source, where no owner has a name: 34, or `{2|2}`.
pub fn parse(text: &str) -> Option<u8> {
    u8::try_from(source::value(text)?).ok()
}

#[cfg(test)]
mod tests {
    use super::*;

    #[test]
    fn a_label_is_a_number_or_two_sets() {
        assert_eq!(parse("34"), Some(34));
        assert_eq!(parse("{2|2}"), Some(34));
        assert_eq!(parse("{*|}"), Some(LOWEST));
        assert_eq!(parse("{ | 1 2 4 8 }"), Some(ALL));
        assert_eq!(parse("256"), None);
        assert_eq!(parse("{16|}"), None);
        assert_eq!(parse("{maker|}"), None);
        assert_eq!(parse("34 34"), None);
        assert_eq!(parse(""), None);
    }

    #[test]
    fn an_owner_is_one_bit_and_one_name() {
        let mut owners = Owners::default();
        assert_eq!(owners.name("maker", 4), Ok(()));
        assert_eq!(owners.bit("maker"), Some(4));
        assert_eq!(owners.name("maker", 2), Err(NoOwner::NameTaken));
        assert_eq!(owners.name("studio", 4), Err(NoOwner::BitTaken("maker".to_string())));
        assert_eq!(owners.name("studio", 12), Err(NoOwner::NotOneBit));
        assert_eq!(owners.name("studio", 16), Err(NoOwner::NotOneBit));
    }
}
