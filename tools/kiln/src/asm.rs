//! `kiln asm`: from a source to an image.

use crate::command::Arguments;
use crate::files;
use crate::listing;
use crate::source::{self, Assembled, Definition};
use crate::status::{Failure, Status};

pub fn asm(arguments: &Arguments) -> Result<Status, Failure> {
    let definitions = definitions(&arguments.definitions)?;
    let name = files::name_of(&arguments.file);
    let bytes = files::read(&arguments.file)?;
    let source = source::text(&bytes).map_err(|error| Failure::refused(error.in_words(name)))?;
    let assembled = source::assemble(source, &definitions).map_err(|errors| {
        let lines: Vec<String> = errors.iter().map(|error| error.in_words(name)).collect();
        Failure::refused(lines.join("\n"))
    })?;
    write(arguments, source, &assembled)?;
    Ok(Status::Done)
}

/// The image goes to -o, the listing to standard output; without either, the
/// image goes to standard output.
fn write(arguments: &Arguments, source: &str, assembled: &Assembled) -> Result<(), Failure> {
    let output = arguments.output.as_deref();
    if output.is_some() || !arguments.listing {
        files::write(output, assembled.image().as_bytes())?;
    }
    if arguments.listing {
        files::write(None, listing::listing(source, assembled).as_bytes())?;
    }
    Ok(())
}

fn definitions(given: &[String]) -> Result<Vec<Definition>, Failure> {
    let read = |text: &String| {
        Definition::parse(text)
            .ok_or_else(|| Failure::refused(format!("kiln asm: -D {text}: NAME=VALUE is wanted")))
    };
    given.iter().map(read).collect()
}
