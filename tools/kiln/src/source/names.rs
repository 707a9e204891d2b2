//! What a source's names stand for: constants, places and owners.

use super::{Error, Position};
use crate::labels::Owners;
use std::collections::{HashMap, HashSet};

/// A name's value, none where its definition is wrong, and where it stands.
struct Known {
    value: Option<i64>,
    at: Position,
}

#[derive(Default)]
pub struct Names<'a> {
    known: HashMap<&'a str, Known>,
    /// Names that get a meaning further down.
    later: HashSet<&'a str>,
    pub owners: Owners,
}

impl<'a> Names<'a> {
    /// Names of which the given ones are defined somewhere in the source.
    pub fn with_later(later: HashSet<&'a str>) -> Names<'a> {
        Names { later, ..Names::default() }
    }

    /// Gives a name its meaning; a second one is an error.
    pub fn define(&mut self, name: &'a str, value: Option<i64>, at: Position) -> Result<(), Error> {
        if let Some(first) = self.known.get(name) {
            let message = format!("`{name}` has a meaning already, from line {}", first.at.line);
            return Err(Error::new(at, message));
        }
        self.known.insert(name, Known { value, at });
        Ok(())
    }

    /// The value of a name that is used at a position: none if its definition
    /// is wrong, which is an error there and not here.
    pub fn value(&self, name: &str, at: Position) -> Result<Option<i64>, Error> {
        match self.known.get(name) {
            Some(known) => Ok(known.value),
            None if self.later.contains(name) => Err(Error::new(
                at,
                format!("`{name}` is defined further down; here it has no value yet"),
            )),
            None => Err(Error::new(at, format!("unknown name `{name}`"))),
        }
    }
}
