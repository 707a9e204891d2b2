//! Tallies: how often each kind of thing was met, and which never was.

use std::collections::BTreeMap;
use std::fmt;

/// Counts by name. A name that is expected is there from the start, so that
/// one that is never met shows up with the count 0.
#[derive(Default)]
pub struct Tally {
    counts: BTreeMap<String, u64>,
}

impl Tally {
    /// A tally in which these names must come up.
    pub fn expecting<T: Into<String>>(names: impl IntoIterator<Item = T>) -> Tally {
        Tally { counts: names.into_iter().map(|name| (name.into(), 0)).collect() }
    }

    pub fn add(&mut self, name: &str, count: u64) {
        match self.counts.get_mut(name) {
            Some(sum) => *sum += count,
            None => {
                self.counts.insert(name.to_string(), count);
            }
        }
    }

    pub fn count(&mut self, name: &str) {
        self.add(name, 1);
    }

    pub fn count_if(&mut self, condition: bool, name: &str) {
        self.add(name, u64::from(condition));
    }

    /// The names that never came up.
    pub fn unmet(&self) -> Vec<&str> {
        let unmet = self.counts.iter().filter(|(_, &count)| count == 0);
        unmet.map(|(name, _)| name.as_str()).collect()
    }
}

impl fmt::Display for Tally {
    fn fmt(&self, out: &mut fmt::Formatter) -> fmt::Result {
        for (name, count) in &self.counts {
            writeln!(out, "{name}: {count}")?;
        }
        Ok(())
    }
}
