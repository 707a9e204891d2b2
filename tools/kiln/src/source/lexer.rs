//! A line of a source, cut into tokens. It never fails: what can't be a token
//! is one that the parser wants nowhere.

use super::Position;

/// From here to the end of the line a source says nothing.
const COMMENT: char = ';';
const DIRECTIVE: char = '.';

#[derive(Clone, Copy, Debug, PartialEq, Eq)]
pub enum Kind {
    Name,
    Number,
    /// A dot and a name.
    Directive,
    /// Any other single character.
    Mark,
    /// The end of the line, with no text.
    End,
}

#[derive(Clone, Copy, Debug, PartialEq, Eq)]
pub struct Token<'a> {
    pub kind: Kind,
    pub text: &'a str,
    pub at: Position,
}

fn begins_name(letter: char) -> bool {
    letter.is_alphabetic() || letter == '_'
}

fn continues_name(letter: char) -> bool {
    letter.is_alphanumeric() || letter == '_'
}

pub fn is_name(text: &str) -> bool {
    text.starts_with(begins_name) && text.chars().all(continues_name)
}

/// The tokens of a line, an end behind them.
pub fn tokens(text: &str, line: usize) -> Vec<Token<'_>> {
    let said = text.split(COMMENT).next().unwrap_or(text);
    let mut tokens = Vec::new();
    let mut rest = said.trim_start();
    while let Some(first) = rest.chars().next() {
        let (kind, length) = measure(rest, first);
        let column = said[..said.len() - rest.len()].chars().count() + 1;
        tokens.push(Token { kind, text: &rest[..length], at: Position { line, column } });
        rest = rest[length..].trim_start();
    }
    let column = said.trim_end().chars().count() + 1;
    tokens.push(Token { kind: Kind::End, text: "", at: Position { line, column } });
    tokens
}

/// The kind and the length in bytes of the token that a text begins with.
fn measure(text: &str, first: char) -> (Kind, usize) {
    let behind = first.len_utf8();
    let name_length = |from: usize| {
        text[from..].find(|letter| !continues_name(letter)).map_or(text.len(), |at| from + at)
    };
    if begins_name(first) {
        (Kind::Name, name_length(behind))
    } else if first.is_ascii_digit() {
        (Kind::Number, name_length(behind))
    } else if first == DIRECTIVE && text[behind..].starts_with(begins_name) {
        (Kind::Directive, name_length(behind))
    } else {
        (Kind::Mark, behind)
    }
}

#[cfg(test)]
mod tests {
    use super::*;

    #[test]
    fn a_line_is_names_numbers_directives_and_marks() {
        let tokens = tokens("été: .set x=0x1F, [R4] ; why", 7);
        let texts: Vec<&str> = tokens.iter().map(|token| token.text).collect();
        assert_eq!(texts, ["été", ":", ".set", "x", "=", "0x1F", ",", "[", "R4", "]", ""]);
        assert_eq!(
            tokens[2],
            Token { kind: Kind::Directive, text: ".set", at: Position { line: 7, column: 6 } }
        );
        assert_eq!(tokens[10].at.column, 23);
    }
}
