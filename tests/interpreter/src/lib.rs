//! An interpreter of the labelled kiln machine of document 01.
//!
//! The modules follow the chapters of that paper. Every function quotes the
//! sentence that it implements, so that the two can be read side by side.
//! Names are those of the field; the paper's own words stand in the comments.
//! What is quoted of register 0 stands in a later request of the owner's: "It
//! now always reads 0 with the lowest label". So does what is quoted of a view:
//! "run to that tick and list what the label sees", of ops 23 and 24: "Division
//! for mixing ratios", of HEX: "Images from Intel HEX", of the pairs of gates:
//! "Bad gates refused at the door", and of what is trusted and what is secret:
//! "An outsider can't steer a release".

#![forbid(unsafe_code)]

pub mod certificate;
pub mod draft;
pub mod fire;
pub mod generator;
pub mod hex;
pub mod instruction;
pub mod label;
pub mod load;
pub mod loops;
pub mod machine;
mod ops;
pub mod print;
pub mod step;
pub mod view;

pub use certificate::Certificate;
pub use fire::{fire, fire_for, fire_hex};
pub use hex::load_hex;
pub use label::{Label, Pair};
pub use load::{load, Refusal};
pub use machine::{is_fit, Call, Gate, Machine, Register, Return};
pub use print::print;
pub use step::Event;
pub use view::{print_for, view, NoView};

/// "lent words or labels shorter than the size | 6"
pub const SHORT_MEMORY: u8 = 6;

/// "record not fit (step, run, print) | 7"
pub const NOT_FIT: u8 = 7;

/// "output too short | 8"
pub const SHORT_OUTPUT: u8 = 8;

/// "10, tick above the limit"
pub const TICK_ABOVE_LIMIT: u8 = 10;
