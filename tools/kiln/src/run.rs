//! `kiln run`: the listing of an image, and how its run ended as exit status.

use crate::command::Arguments;
use crate::files;
use crate::library::{Machine, Refusal, HALTED, HEX_BYTE, HEX_RECORD};
use crate::refusals;
use crate::status::{Failure, Status};

/// Without -o, standard output gets what `firing` or `hexfiring` prints, the X line
/// of a refused image too. A file gets a listing or nothing.
pub fn run(arguments: &Arguments) -> Result<Status, Failure> {
    let image = Image::read(arguments)?;
    let output = arguments.output.as_deref();
    let loaded = image.load();
    if let (Err(refusal), None) = (&loaded, output) {
        files::write(None, refusals::line(refusal).as_bytes())?;
    }
    let mut machine = loaded.map_err(|refusal| image.failure(&refusal))?;
    machine.run();
    files::write(output, &machine.listing())?;
    Ok(if machine.end() == HALTED { Status::Done } else { Status::EndedOtherwise })
}

/// A file's name, and its bytes.
struct Text<'a> {
    name: &'a str,
    bytes: Vec<u8>,
}

/// What is run: an image, or an M text with a HEX text and the label of its words.
struct Image<'a> {
    text: Text<'a>,
    hex: Option<(Text<'a>, u8)>,
}

impl<'a> Image<'a> {
    fn read(arguments: &'a Arguments) -> Result<Image<'a>, Failure> {
        let name = arguments.file.as_str();
        let text = Text { name, bytes: files::read_image(name)? };
        let hex = arguments.hex.as_deref().zip(arguments.label);
        let read = |(name, label)| Ok((Text { name, bytes: files::read(name)? }, label));
        Ok(Image { text, hex: hex.map(read).transpose()? })
    }

    fn load(&self) -> Result<Machine, Refusal> {
        match &self.hex {
            None => Machine::load(&self.text.bytes),
            Some((hex, label)) => Machine::load_hex(&self.text.bytes, &hex.bytes, *label),
        }
    }

    /// The refusal in words, with the file that its line is of.
    fn failure(&self, refusal: &Refusal) -> Failure {
        let refused = match (&self.hex, refusal.number) {
            (Some((hex, _)), HEX_RECORD | HEX_BYTE) => hex,
            _ => &self.text,
        };
        refusals::failure(refused.name, &refused.bytes, refusal)
    }
}
