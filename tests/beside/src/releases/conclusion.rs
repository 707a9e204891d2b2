//! What is claimed of a pair: "the step of the second carries out the same one, of
//! the same location to the same label, and its value is equal."

use super::outsider::Outsider;
use crate::pairs::seen::State;
use interpreter::Label;

/// The states before a step and after it.
#[derive(Clone, Debug)]
pub struct Step {
    pub before: State,
    pub after: State,
}

/// "a relabelling from secret to not secret" that a step carried out. Nothing but a
/// relabelling changes a label, so the labels before and after tell.
#[derive(Clone, Copy, Debug, PartialEq, Eq)]
pub struct Release {
    /// Registers come first, then words.
    pub location: usize,
    pub from: Label,
    pub to: Label,
    /// The location's value before the step, and after it.
    pub before: u32,
    pub after: u32,
}

/// All that a step releases.
pub fn releases(outsider: Outsider, step: &Step) -> Vec<Release> {
    let locations = step.before.locations().zip(step.after.locations()).enumerate();
    let is_release =
        |(a, b): (Label, Label)| outsider.is_secret_label(a) && !outsider.is_secret_label(b);
    let released = locations.filter(|(_, (a, b))| is_release((a.label, b.label)));
    released
        .map(|(location, (a, b))| {
            let (from, to) = (a.label, b.label);
            Release { location, from, to, before: a.value, after: b.value }
        })
        .collect()
}

/// How the second step's release is not that of the first.
#[derive(Clone, Copy, Debug, PartialEq, Eq)]
pub enum Steered {
    /// It releases nothing.
    NotReleased,
    /// It releases another location.
    Location,
    /// The location had another label.
    OldLabel,
    /// It gets another label.
    NewLabel,
    /// Its value is another one, before or after.
    Value,
    /// Its value is not what it was before.
    Changed,
}

/// Whether one step's release is another's.
fn compare(one: Release, other: Release) -> Option<Steered> {
    let parts = [
        (Steered::Location, one.location == other.location),
        (Steered::OldLabel, one.from == other.from),
        (Steered::NewLabel, one.to == other.to),
        (Steered::Value, (one.before, one.after) == (other.before, other.after)),
        (Steered::Changed, one.before == one.after && other.before == other.after),
    ];
    parts.iter().find(|(_, holds)| !holds).map(|(part, _)| *part)
}

/// How the claim fails for a release of the first step: the second's is the one of
/// the same location, or else any.
fn steered_from(one: Release, others: &[Release]) -> Option<Steered> {
    let same = others.iter().find(|other| other.location == one.location);
    match same.or(others.first()) {
        Some(&other) => compare(one, other),
        None => Some(Steered::NotReleased),
    }
}

/// How the claim fails, if it does. It says nothing of a second step's release
/// where the first has none: that is the claim with the steps exchanged.
pub fn steered(outsider: Outsider, one: &Step, other: &Step) -> Option<Steered> {
    let others = releases(outsider, other);
    releases(outsider, one).into_iter().find_map(|release| steered_from(release, &others))
}
