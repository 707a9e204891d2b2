//! `kiln asm -l`: a source with what it has become beside it.

use crate::image::{Cell, Line};
use crate::ops;
use crate::source::{Assembled, Origin};
use std::collections::BTreeMap;

/// Where the source begins, and with it how wide the columns before it are.
const WIDTH: usize = 46;

/// The listing: address, label, word, op with its fields, and ticks before each
/// line of the source; before a line that is no word, the image's line.
pub fn listing(source: &str, assembled: &Assembled) -> String {
    let mut made: BTreeMap<usize, Vec<String>> = BTreeMap::new();
    for origin in &assembled.lines {
        made.entry(origin.at.line).or_default().push(in_columns(origin));
    }
    let head = row(&columns(["address", "label", "word", "op a b n", "ticks"]), "source");
    let beside = |(index, text)| beside(text, made.get(&(index + 1)).map_or(&[], Vec::as_slice));
    head + &source.lines().enumerate().map(beside).collect::<String>()
}

/// A line of the source, beside the first line of the image that comes from it;
/// the others follow.
fn beside(text: &str, made: &[String]) -> String {
    let mut made = made.iter();
    let first = row(made.next().map_or("", String::as_str), text);
    first + &made.map(|columns| row(columns, "")).collect::<String>()
}

fn row(columns: &str, source: &str) -> String {
    format!("{}\n", format!("{columns:WIDTH$}  {source}").trim_end())
}

fn in_columns(origin: &Origin) -> String {
    let Line::Word(Cell { number, label, value }) = origin.line else {
        return origin.line.to_string();
    };
    let [address, label, word] = [number.to_string(), label.to_string(), value.to_string()];
    match origin.op {
        Some(op) => columns([&address, &label, &word, &fields(value), op.ticks]),
        None => columns([&address, &label, &word, "", ""]),
    }
}

fn fields(word: u32) -> String {
    let ops::Fields { op, a, b, n, .. } = ops::fields(word);
    format!("{op} {a} {b} {n}")
}

fn columns([address, label, word, op, ticks]: [&str; 5]) -> String {
    format!("{address:>7} {label:>5} {word:>10}  {op:13} {ticks:6}")
}
