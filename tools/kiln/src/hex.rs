//! `kiln hex`: the words of one label of an image, as Intel HEX.

use crate::command::Arguments;
use crate::files;
use crate::image::{self, Cell, Line};
use crate::records;
use crate::status::{Failure, Status};
use std::collections::BTreeSet;

/// What is left out is told, and shows in the exit status: with status 0 the HEX
/// text, the label and the image's first line are the whole image.
pub fn hex(arguments: &Arguments) -> Result<Status, Failure> {
    let lines = image::read(&arguments.file)?;
    let say = |words: String| format!("{}: {words}", files::name_of(&arguments.file));
    let label = label(&lines, arguments.label).map_err(|why| Failure::refused(say(why)))?;
    let words: Vec<Cell> =
        lines.iter().filter_map(word).filter(|word| Some(word.label) == label).collect();
    files::write(arguments.output.as_deref(), records::written(&words).as_bytes())?;
    match left_out(&lines, words.len()) {
        None => Ok(Status::Done),
        Some(told) => Err(Failure::partly(say(told))),
    }
}

fn word(line: &Line) -> Option<Cell> {
    match line {
        Line::Word(word) => Some(*word),
        _ => None,
    }
}

/// The label whose words are written: the one that is asked for, or the only one.
/// An image without words has none.
fn label(lines: &[Line], asked: Option<u8>) -> Result<Option<u8>, String> {
    let labels: BTreeSet<u8> = lines.iter().filter_map(word).map(|word| word.label).collect();
    let named = || labels.iter().map(u8::to_string).collect::<Vec<_>>().join(", ");
    match asked {
        Some(label) if !labels.is_empty() && !labels.contains(&label) => {
            Err(format!("no word has the label {label}; those of its words: {}", named()))
        }
        None if labels.len() > 1 => {
            Err(format!("its words have several labels; --label wants one of {}", named()))
        }
        _ => Ok(asked.or(labels.first().copied())),
    }
}

/// The lines of which nothing is written, beside the first one and so many words.
fn left_out(lines: &[Line], written: usize) -> Option<String> {
    let count = |is_one: fn(&Line) -> bool| lines.iter().filter(|line| is_one(line)).count();
    let counts = [
        ("G lines", count(|line| matches!(line, Line::Gate(_)))),
        ("R lines", count(|line| matches!(line, Line::Register(_)))),
        ("W lines of other labels", count(|line| matches!(line, Line::Word(_))) - written),
    ];
    let told = counts.iter().filter(|(_, count)| *count > 0);
    let told: Vec<String> = told.map(|(what, count)| format!("{what} ({count})")).collect();
    (!told.is_empty()).then(|| format!("left out: {}", told.join(", ")))
}
