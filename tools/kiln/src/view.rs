//! `kiln view`: what a label sees of an image at a tick, as a listing.

use crate::command::Arguments;
use crate::files;
use crate::library::{self, Machine, Refusal};
use crate::refusals;
use crate::status::{Failure, Status};

/// Standard output gets what `viewing` prints, the X line of a refusal too. How
/// the run ended may be out of the label's sight, so the exit status doesn't say.
pub fn view(arguments: &Arguments) -> Result<Status, Failure> {
    let label = arguments.label.expect("view's command line has a label");
    let text = files::read_image(&arguments.file)?;
    match listing(&text, label, arguments.tick) {
        Ok(listing) => {
            files::write(None, &listing)?;
            Ok(Status::Done)
        }
        Err(refusal) => {
            files::write(None, refusals::line(&refusal).as_bytes())?;
            Err(refusals::failure(&arguments.file, &text, &refusal))
        }
    }
}

/// Without a tick, the listing at the limit: by then every run has ended.
fn listing(text: &[u8], label: u8, tick: Option<u64>) -> Result<Vec<u8>, Refusal> {
    let limit = || Machine::load(text).map(|loaded| loaded.limit());
    library::view(text, label, tick.map_or_else(limit, Ok)?)
}
