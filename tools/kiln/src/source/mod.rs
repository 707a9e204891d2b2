//! The source language: what a source says, read, checked and assembled. The
//! man page kiln-source(5) tells it whole.

mod assemble;
mod expression;
mod fields;
mod layout;
mod lexer;
mod names;
mod parser;

pub use assemble::{assemble, Assembled, Origin};

use expression::Expression;
use names::Names;
use std::fmt;

/// Where something stands in a source: line and column, counted from 1, the
/// column in characters.
#[derive(Clone, Copy, Debug, PartialEq, Eq, PartialOrd, Ord, Hash)]
pub struct Position {
    pub line: usize,
    pub column: usize,
}

/// What is wrong, and where. What is wrong with the source as a whole has no
/// position.
#[derive(Clone, Debug, PartialEq, Eq, PartialOrd, Ord)]
pub struct Error {
    at: Option<Position>,
    message: String,
}

impl Error {
    fn new(at: Position, message: impl Into<String>) -> Error {
        Error { at: Some(at), message: message.into() }
    }

    fn whole(message: impl Into<String>) -> Error {
        Error { at: None, message: message.into() }
    }

    /// The error as a line, without LF, about the source of a name.
    pub fn in_words(&self, name: &str) -> String {
        match self.at {
            Some(Position { line, column }) => format!("{name}:{line}:{column}: {}", self.message),
            None => format!("{name}: {}", self.message),
        }
    }
}

/// A source's bytes as text.
pub fn text(bytes: &[u8]) -> Result<&str, Error> {
    std::str::from_utf8(bytes).map_err(|error| {
        let before = String::from_utf8_lossy(&bytes[..error.valid_up_to()]);
        let line = before.matches('\n').count() + 1;
        let column = before.chars().rev().take_while(|letter| *letter != '\n').count() + 1;
        Error::new(Position { line, column }, "the text is not UTF-8")
    })
}

/// A constant that the command line gives.
#[derive(Clone, Debug, PartialEq, Eq)]
pub struct Definition {
    pub name: String,
    pub value: i64,
}

impl Definition {
    /// Reads `NAME=VALUE`.
    pub fn parse(text: &str) -> Option<Definition> {
        let (name, value) = text.split_once('=')?;
        let is_name = lexer::is_name(name) && !parser::is_register(name);
        is_name.then_some(Definition { name: name.to_string(), value: self::value(value)? })
    }
}

/// The value of a text outside a source, where nothing has a name.
pub fn value(text: &str) -> Option<i64> {
    let tokens = lexer::tokens(text, 1);
    let expression = Expression::alone(&tokens)?;
    expression.value(&Names::default(), &mut Vec::new())
}

/// A thing in quotes, for messages.
struct Quoted<'a>(&'a str);

impl fmt::Display for Quoted<'_> {
    fn fmt(&self, to: &mut fmt::Formatter) -> fmt::Result {
        match self.0 {
            "" => write!(to, "the end of the line"),
            text => write!(to, "`{}`", text.escape_debug()),
        }
    }
}
