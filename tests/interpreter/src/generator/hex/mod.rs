//! Generated images from HEX: good ones, cut into records in every way, and
//! damaged ones for each cause and each order between two.

pub mod cut;
pub mod damage;
pub mod draft;
pub mod faults;
pub mod record;

use crate::label::Label;

/// What a load from HEX is given: an M text, the text of the records, and the
/// label of what they give.
#[derive(Clone, Debug)]
pub struct HexImage {
    pub text: Vec<u8>,
    pub hex: Vec<u8>,
    pub label: Label,
}
