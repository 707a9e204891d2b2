//! The command line: the commands, what each takes, and its help.

use crate::asm::asm;
use crate::certify::certify;
use crate::dis::dis;
use crate::files;
use crate::hex::hex;
use crate::labels;
use crate::run::run;
use crate::status::{Failure, Status};
use crate::trace::trace;
use crate::view::view;

/// What a command was given.
#[derive(Debug, Default)]
pub struct Arguments {
    /// A file's name, or `-` for standard input.
    pub file: String,
    /// -o: where to write.
    pub output: Option<String>,
    /// asm's -l.
    pub listing: bool,
    /// asm's -D, each as given.
    pub definitions: Vec<String>,
    /// run's --hex: a file's name, or `-`.
    pub hex: Option<String>,
    /// The label at which one looks: trace's --as, or LABEL of view and certify. Or
    /// that of the words of a HEX text: --label.
    pub label: Option<u8>,
    /// The tick at which view looks.
    pub tick: Option<u64>,
}

/// An option, and the value that hangs on it.
type Given<'a> = (&'static str, Option<&'a str>);

/// What a command takes behind its file.
#[derive(PartialEq, Eq)]
enum Behind {
    Nothing,
    Label,
    /// The tick may be left out.
    LabelAndTick,
}

/// A command: its name, the options that it takes, what stands behind its file,
/// and what it does.
pub struct Command {
    pub name: &'static str,
    options: &'static [&'static str],
    behind: Behind,
    pub usage: &'static str,
    pub help: &'static str,
    pub act: fn(&Arguments) -> Result<Status, Failure>,
}

const OUTPUT: &str = "-o";
const LISTING: &str = "-l";
const DEFINITION: &str = "-D";
const VIEWER: &str = "--as";
const HEX: &str = "--hex";
const LABEL: &str = "--label";
/// A number has at most so many digits.
const DIGITS: usize = 10;
/// Behind it no argument is an option.
const NO_MORE_OPTIONS: &str = "--";

pub const HELP: &str = "--help";
pub const SHORT_HELP: &str = "-h";

pub const COMMANDS: [Command; 7] = [
    Command {
        name: "asm",
        options: &[OUTPUT, LISTING, DEFINITION],
        behind: Behind::Nothing,
        usage: "kiln asm FILE [-o IMAGE] [-l] [-D NAME=VALUE]...",
        help: "\
Makes the image of a source. Errors say FILE:LINE:COLUMN, all of them.
  -o IMAGE       write the image there; without it and without -l, to standard output
  -l             print address, label, word, op and ticks beside the source
  -D NAME=VALUE  give a .parameter of the source this value
kiln-source(5) tells the language.
",
        act: asm,
    },
    Command {
        name: "dis",
        options: &[OUTPUT],
        behind: Behind::Nothing,
        usage: "kiln dis IMAGE [-o FILE]",
        help: "\
Writes a source of an image; asm makes the same image of it, to the byte.
  -o FILE  write the source there instead of to standard output
",
        act: dis,
    },
    Command {
        name: "run",
        options: &[OUTPUT, HEX, LABEL],
        behind: Behind::Nothing,
        usage: "kiln run [--hex HEX --label LABEL] IMAGE [-o LISTING]",
        help: "\
Runs an image to its end and writes the listing.
  --hex HEX      the words are those of this file, in Intel HEX; IMAGE is then an M line alone
  --label LABEL  they get this label: a number 0 to 255, or two sets of bits as {2|2}
  -o LISTING     write it there instead of to standard output; the file is whole or not there
Exit status: 0 halted, 1 clock spent or stalled, 2 refused, 3 input or output failed.
",
        act: run,
    },
    Command {
        name: "hex",
        options: &[OUTPUT, LABEL],
        behind: Behind::Nothing,
        usage: "kiln hex IMAGE [--label LABEL] [-o HEX]",
        help: "\
Writes the words of one label of an image as Intel HEX. The image's first line, this
text and the label are what run takes with --hex.
  --label LABEL  the label: a number 0 to 255, or two sets of bits as {2|2};
                 it may be left out where the words have one label alone
  -o HEX         write it there instead of to standard output; the file is whole or not there
Exit status: 0 written, 1 written and something of the image left out, which standard
error tells, 2 refused, 3 input or output failed.
",
        act: hex,
    },
    Command {
        name: "trace",
        options: &[VIEWER],
        behind: Behind::Nothing,
        usage: "kiln trace IMAGE [--as LABEL]",
        help: "\
Runs an image and tells each step: the tick at which it finishes, its pc, its op
and what it changes. A ! marks a step without effect.
  --as LABEL  tell only what this label sees, H where the control is out of its sight;
              a number 0 to 255, or two sets of bits, trust and secrecy: {2|2}
",
        act: trace,
    },
    Command {
        name: "view",
        options: &[],
        behind: Behind::LabelAndTick,
        usage: "kiln view IMAGE LABEL [TICK]",
        help: "\
Runs an image to a tick and lists what this label sees then: the control, or a line H
where it is out of its sight, and the registers and words whose labels flow to it.
LABEL is a number 0 to 255, or two sets of bits, trust and secrecy: {2|2}
TICK is at most the image's limit; without it, the limit, by which every run has ended.
Exit status: 0 listed, 2 refused, 3 input or output failed.
",
        act: view,
    },
    Command {
        name: "certify",
        options: &[],
        behind: Behind::Label,
        usage: "kiln certify IMAGE LABEL",
        help: "\
Runs an image and tells up to which tick nothing of what is hidden at this label can
show there, whatever the hidden registers and words hold, and what ends it then.
LABEL is a number 0 to 255, or two sets of bits, trust and secrecy: {2|2}
Exit status: 0 to the end, 1 up to a tick, 2 refused, 3 input or output failed.
",
        act: certify,
    },
];

impl Command {
    pub fn named(name: &str) -> Option<&'static Command> {
        COMMANDS.iter().find(|command| command.name == name)
    }

    /// Whether help is asked for behind the command's name.
    pub fn is_asked_for_help(given: &[String]) -> bool {
        let mut options = given.iter().take_while(|argument| *argument != NO_MORE_OPTIONS);
        options.any(|argument| argument == HELP || argument == SHORT_HELP)
    }

    /// Reads what stands behind the command's name.
    pub fn read(&self, given: &[String]) -> Result<Arguments, String> {
        let mut arguments = Arguments::default();
        let mut operands = Vec::new();
        let mut rest = given.iter();
        while let Some(argument) = rest.next() {
            match self.option(argument)? {
                None if argument == NO_MORE_OPTIONS => operands.extend(rest.by_ref()),
                None => operands.push(argument),
                Some((LISTING, _)) => arguments.listing = true,
                Some((option, value)) => {
                    let value = value.or_else(|| rest.next().map(String::as_str));
                    let value = value.ok_or(format!("{option} lacks its value"))?;
                    arguments.set(option, value)?;
                }
            }
        }
        self.place(&operands, &mut arguments)?;
        if self.options.contains(&HEX) {
            arguments.try_hex()?;
        }
        Ok(arguments)
    }

    /// Takes what is no option: the file, and what the command takes behind it.
    fn place(&self, operands: &[&String], arguments: &mut Arguments) -> Result<(), String> {
        let mut rest = operands.iter();
        let file = rest.next().ok_or("a file is missing; - is standard input")?;
        arguments.file = file.to_string();
        if self.behind != Behind::Nothing {
            arguments.label = Some(label(rest.next().ok_or("a label is missing")?)?);
        }
        if self.behind == Behind::LabelAndTick {
            arguments.tick = rest.next().map(|text| tick(text)).transpose()?;
        }
        match rest.next() {
            None => Ok(()),
            Some(more) => Err(format!("one argument too many: {more}")),
        }
    }

    /// The option that an argument is, with the value that hangs on it, as in
    /// `-oFILE` and `--as=34`; none if it is no option.
    fn option<'a>(&self, argument: &'a str) -> Result<Option<Given<'a>>, String> {
        if !argument.starts_with('-') || argument == "-" || argument == NO_MORE_OPTIONS {
            return Ok(None);
        }
        let found =
            self.options.iter().find_map(|option| Some((*option, value(option, argument)?)));
        found.map(Some).ok_or(format!("unknown option {argument}"))
    }
}

/// An option's value in an argument: none if it is in the next one. Nothing if
/// the argument isn't this option.
fn value<'a>(option: &str, argument: &'a str) -> Option<Option<&'a str>> {
    let behind = argument.strip_prefix(option)?;
    match behind.strip_prefix('=') {
        _ if behind.is_empty() => Some(None),
        _ if option == LISTING => None,
        _ if !option.starts_with("--") => Some(Some(behind)),
        after => after.map(Some),
    }
}

impl Arguments {
    fn set(&mut self, option: &str, value: &str) -> Result<(), String> {
        let is_new = match option {
            OUTPUT => self.output.replace(value.to_string()).is_none(),
            HEX => self.hex.replace(value.to_string()).is_none(),
            VIEWER | LABEL => self.label.replace(label(value)?).is_none(),
            _ => {
                self.definitions.push(value.to_string());
                true
            }
        };
        match is_new {
            true => Ok(()),
            false => Err(format!("{option} is given twice")),
        }
    }

    /// HEX needs a label, and a label HEX; each file is read whole, so that standard
    /// input can be one of the two alone.
    fn try_hex(&self) -> Result<(), String> {
        let is_standard = |name: &String| name == files::STANDARD;
        match &self.hex {
            Some(_) if self.label.is_none() => Err(format!("{HEX} lacks its {LABEL}")),
            None if self.label.is_some() => Err(format!("{LABEL} lacks its {HEX}")),
            Some(hex) if is_standard(hex) && is_standard(&self.file) => {
                Err("two files are standard input".to_string())
            }
            _ => Ok(()),
        }
    }
}

/// A tick is written as numbers are in an image. Any one that is can be asked for;
/// whether it is above the limit is the library's to say.
fn tick(text: &str) -> Result<u64, String> {
    let is_number = text.bytes().all(|byte| byte.is_ascii_digit())
        && (1..=DIGITS).contains(&text.len())
        && (text == "0" || !text.starts_with('0'));
    let tick = text.parse().ok().filter(|_| is_number);
    tick.ok_or_else(|| format!("{text} is no tick: one to ten digits without a leading zero"))
}

fn label(text: &str) -> Result<u8, String> {
    let wanted = "a number 0 to 255, or two sets of bits as {2|2}";
    labels::parse(text).ok_or_else(|| format!("{text} is no label: {wanted}"))
}
