//! `kiln trace`: each step of a run with what it changes, or with --as what a
//! label sees of the run, tick by tick.

mod changes;
mod lines;
mod sight;
mod watch;

use crate::command::Arguments;
use crate::files;
use crate::library::{Machine, HIGHEST, RUNNING};
use crate::refusals;
use crate::status::{Failure, Status};
use sight::Sight;
use std::io::{self, BufWriter, Write};

pub fn trace(arguments: &Arguments) -> Result<Status, Failure> {
    let text = files::read_image(&arguments.file)?;
    let loaded = Machine::load(&text);
    let machine = loaded.map_err(|refusal| refusals::failure(&arguments.file, &text, &refusal))?;
    let mut output = BufWriter::new(files::standard_output()?);
    let written = match arguments.label {
        None => steps(machine, &mut output),
        Some(label) => watch::ticks(machine, label, &mut output),
    };
    written.and_then(|()| output.flush()).map_err(|error| files::output_failed(&error))?;
    Ok(Status::Done)
}

/// One line for each step, for whoever may read the whole image.
fn steps(mut machine: Machine, output: &mut impl Write) -> io::Result<()> {
    let mut before = machine.clone();
    let mut sight = Sight::of(HIGHEST, &machine);
    lines::header(output)?;
    while before.end() == RUNNING {
        machine.step();
        let after = sight.later(HIGHEST, &machine, before.differing_words(&machine));
        let mut changes = changes::between(&before, &sight, &after);
        if changes.is_empty() {
            changes.push(changes::without_effect(&before).to_string());
        }
        lines::step(output, machine.clock(), &before, &changes)?;
        before.clone_from(&machine);
        sight = after;
    }
    Ok(())
}
