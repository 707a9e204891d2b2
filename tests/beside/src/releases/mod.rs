//! Releases that an outsider would steer, tried on pairs of records.
//!
//! Two records agree on all that is trusted, and differ in what the outsider can
//! write. Each does one step in memory of its own length. What the one releases,
//! the other releases too.

pub mod conclusion;
pub mod first;
pub mod hypotheses;
pub mod met;
pub mod outsider;
pub mod parts;
pub mod plan;
pub mod runs;
pub mod second;
pub mod stepped;
pub mod stops;
pub mod variations;

use crate::pairs::seen::State;
use outsider::Outsider;

/// An outsider and two records with their memory.
#[derive(Clone, Debug)]
pub struct Pair {
    pub outsider: Outsider,
    pub one: State,
    pub other: State,
    /// A word that may stand behind the memory of either.
    pub beyond: u32,
}
