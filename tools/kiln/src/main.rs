//! kiln: writes, fires and shows images of the labelled kiln machine. Here the
//! command line is taken apart; each command has a file of its own.

#![deny(unsafe_code)]

mod asm;
mod certify;
mod command;
mod dis;
mod files;
mod hex;
mod image;
mod labels;
mod library;
mod listing;
mod ops;
mod records;
mod refusals;
mod run;
mod source;
mod standard;
mod status;
mod trace;
mod view;

use command::{Command, COMMANDS, HELP, SHORT_HELP};
use status::{Failure, Status};
use std::env;
use std::io::{self, Write};
use std::process::ExitCode;

const VERSION: &str = include_str!("../../../VERSION");

fn main() -> ExitCode {
    let status = arguments().and_then(|given| dispatch(&given)).unwrap_or_else(|failure| {
        // If standard error fails as well, the exit status is all that is left.
        let _ = writeln!(io::stderr(), "{}", failure.message);
        failure.status
    });
    ExitCode::from(status as u8)
}

fn arguments() -> Result<Vec<String>, Failure> {
    let text = |argument: std::ffi::OsString| {
        argument.into_string().map_err(|raw| usage(&format!("{raw:?} is not UTF-8")))
    };
    env::args_os().skip(1).map(text).collect()
}

fn dispatch(given: &[String]) -> Result<Status, Failure> {
    let Some((first, rest)) = given.split_first() else {
        return Err(usage("a command is missing"));
    };
    match first.as_str() {
        HELP | SHORT_HELP => say(&help()),
        "--version" => say(&format!("kiln {VERSION}")),
        name => match Command::named(name) {
            Some(command) => act(command, rest),
            None => Err(usage(&format!("unknown command {name}"))),
        },
    }
}

fn act(command: &Command, given: &[String]) -> Result<Status, Failure> {
    if Command::is_asked_for_help(given) {
        return say(&format!("usage: {}\n{}", command.usage, command.help));
    }
    let arguments = command.read(given).map_err(|error| {
        Failure::refused(format!("kiln {}: {error}\nusage: {}", command.name, command.usage))
    })?;
    (command.act)(&arguments)
}

fn say(text: &str) -> Result<Status, Failure> {
    files::write(None, text.as_bytes())?;
    Ok(Status::Done)
}

fn usage(error: &str) -> Failure {
    let names = COMMANDS.map(|command| command.name).join("|");
    Failure::refused(format!("kiln: {error}\nusage: kiln {names} FILE [ARGUMENT]..., kiln --help"))
}

fn help() -> String {
    let usages: String = COMMANDS.iter().map(|command| format!("  {}\n", command.usage)).collect();
    format!(
        "Writes, fires and shows images of the labelled kiln machine.\n{usages}\
         kiln COMMAND --help tells what a command does, kiln --version the version.\n\
         A file that is called - is standard input.\n"
    )
}
