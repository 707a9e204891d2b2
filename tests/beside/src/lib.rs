//! The library beside the interpreter.
//!
//! The library is called through its C functions, the interpreter through the
//! same buffers. Seven programs compare them: `listings` on generated images, `hex`
//! on images from HEX, `calls` on records and memory that no load gives, `views`
//! at the ticks of generated images, `pairs` on pairs of machines that differ in
//! their secrets, `certificates` on pairs of which one is certified, `releases` on
//! pairs of records that differ in what an outsider can write.

#![deny(unsafe_code)]

pub mod bases;
pub mod breaks;
pub mod buffers;
pub mod calls;
pub mod certificate;
pub mod chains;
pub mod edges;
pub mod fired;
pub mod hex_loads;
pub mod layout;
pub mod library;
pub mod loads;
pub mod long_views;
pub mod no_records;
pub mod other;
pub mod pairs;
pub mod parting;
pub mod program;
pub mod random_records;
pub mod releases;
pub mod tally;
pub mod trial;
pub mod trials;
pub mod verdict;
pub mod views;
