//! Noninterference, tried on pairs of machines through the calls.
//!
//! Two machines are loaded alike at or below a label and differ in what that
//! label doesn't see. Each gets its own calls in memory of its own length. At
//! every tick that both have reached they must be alike, and listed alike, as
//! long as the three provisos hold in both.

pub mod certified;
pub mod check;
pub mod divisions;
pub mod from_hex;
pub mod hidden;
pub mod image;
pub mod make;
pub mod multiplies;
pub mod operands;
pub mod provisos;
pub mod seen;
pub mod trace;
pub mod views;
