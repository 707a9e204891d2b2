//! What a machine of a pair is loaded from: a text, or an M text with HEX and a
//! label.

use crate::buffers::Lent;
use crate::calls::Calls;
use interpreter::generator::hex::HexImage;

/// An image, as it is handed to the call that loads it.
pub enum Image {
    Text(Vec<u8>),
    Hex(HexImage),
}

impl Image {
    /// Loads it; the answer is 0 where it is accepted.
    pub fn load(&self, calls: &dyn Calls, lent: &mut Lent) -> u64 {
        match self {
            Image::Text(text) => lent.load(calls, text),
            Image::Hex(image) => lent.load_hex(calls, image),
        }
    }
}
