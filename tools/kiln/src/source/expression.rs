//! Numbers in a source: numerals, names, labels as sets of owners, and sums of
//! these.

use super::lexer::Token;
use super::names::Names;
use super::parser::{Parsed, Parser};
use super::{Error, Position};
use crate::labels;

const PLUS: &str = "+";
const MINUS: &str = "-";
const OPEN_SET: &str = "{";
const BETWEEN_SETS: &str = "|";
const CLOSE_SET: &str = "}";
const EVERYBODY: &str = "*";
const HEXADECIMAL: &str = "0x";

/// A sum. `at` is where it begins.
#[derive(Debug)]
pub struct Expression<'a> {
    pub at: Position,
    summands: Vec<Summand<'a>>,
}

#[derive(Debug)]
struct Summand<'a> {
    is_subtracted: bool,
    term: Term<'a>,
}

#[derive(Debug)]
enum Term<'a> {
    Number(i64),
    Name(Token<'a>),
    Label { trust: Vec<Member<'a>>, secrecy: Vec<Member<'a>> },
}

/// Who is in a set of owners.
#[derive(Debug)]
enum Member<'a> {
    Owner(Token<'a>),
    Bits(i64, Position),
}

impl<'a> Parser<'a> {
    pub fn expression(&mut self) -> Parsed<Expression<'a>> {
        let at = self.peek().at;
        let mut summands = vec![Summand { is_subtracted: false, term: self.term()? }];
        while let Some(sign) = self.take_one_of(&[PLUS, MINUS]) {
            summands.push(Summand { is_subtracted: sign == MINUS, term: self.term()? });
        }
        Ok(Expression { at, summands })
    }

    fn term(&mut self) -> Parsed<Term<'a>> {
        if self.take(OPEN_SET) {
            let trust = self.members(BETWEEN_SETS)?;
            let secrecy = self.members(CLOSE_SET)?;
            return Ok(Term::Label { trust, secrecy });
        }
        if let Some(number) = self.take_number() {
            return Ok(Term::Number(numeral(&number)?));
        }
        Ok(Term::Name(self.name("a number or a name")?))
    }

    fn members(&mut self, end: &str) -> Parsed<Vec<Member<'a>>> {
        let mut members = Vec::new();
        while !self.take(end) {
            members.push(self.member(end)?);
        }
        Ok(members)
    }

    fn member(&mut self, end: &str) -> Parsed<Member<'a>> {
        let at = self.peek().at;
        if self.take(EVERYBODY) {
            return Ok(Member::Bits(labels::ALL.into(), at));
        }
        if let Some(number) = self.take_number() {
            return Ok(Member::Bits(numeral(&number)?, at));
        }
        Ok(Member::Owner(self.name(&format!("an owner or `{end}`"))?))
    }
}

/// A numeral, in base ten, or sixteen behind 0x.
fn numeral(token: &Token) -> Parsed<i64> {
    let read = match token.text.strip_prefix(HEXADECIMAL) {
        Some(digits) => i64::from_str_radix(digits, 16),
        None => token.text.parse(),
    };
    read.map_err(|_| Error::new(token.at, format!("`{}` is no number, or too large", token.text)))
}

impl<'a> Expression<'a> {
    /// The expression that some tokens are, if they are one and no more.
    pub fn alone(tokens: &[Token<'a>]) -> Option<Expression<'a>> {
        let mut parser = Parser::new(tokens);
        let expression = parser.expression().ok()?;
        parser.end().ok()?;
        Some(expression)
    }

    /// The value. If there is none, the errors tell why, here or where a name
    /// got no value.
    pub fn value(&self, names: &Names, errors: &mut Vec<Error>) -> Option<i64> {
        let values: Vec<Option<i64>> =
            self.summands.iter().map(|summand| summand.term.value(names, errors)).collect();
        let values: Vec<i64> = values.into_iter().collect::<Option<_>>()?;
        let sum = self
            .summands
            .iter()
            .zip(values)
            .try_fold(0, |sum, (summand, value)| summand.add_to(sum, value));
        if sum.is_none() {
            errors.push(Error::new(self.at, "the sum is too large"));
        }
        sum
    }
}

impl Summand<'_> {
    /// A sum with the summand's value, none if it is too large.
    fn add_to(&self, sum: i64, value: i64) -> Option<i64> {
        match self.is_subtracted {
            true => sum.checked_sub(value),
            false => sum.checked_add(value),
        }
    }
}

impl Term<'_> {
    fn value(&self, names: &Names, errors: &mut Vec<Error>) -> Option<i64> {
        match self {
            Term::Number(number) => Some(*number),
            Term::Name(name) => names.value(name.text, name.at).unwrap_or_else(|error| {
                errors.push(error);
                None
            }),
            Term::Label { trust, secrecy } => {
                let trust = union(trust, names, errors);
                let secrecy = union(secrecy, names, errors);
                Some(labels::label(trust?, secrecy?).into())
            }
        }
    }
}

/// The bits of all members, none if one of them is wrong.
fn union(members: &[Member], names: &Names, errors: &mut Vec<Error>) -> Option<u8> {
    let mut bits = Some(0);
    for member in members {
        match member.bits(names) {
            Ok(more) => bits = bits.map(|bits| bits | more),
            Err(error) => {
                errors.push(error);
                bits = None;
            }
        }
    }
    bits
}

impl Member<'_> {
    fn bits(&self, names: &Names) -> Parsed<u8> {
        match self {
            Member::Owner(name) => names
                .owners
                .bit(name.text)
                .ok_or_else(|| Error::new(name.at, format!("unknown owner `{}`", name.text))),
            Member::Bits(bits, at) => {
                u8::try_from(*bits).ok().filter(|bits| *bits <= labels::ALL).ok_or_else(|| {
                    Error::new(
                        *at,
                        format!("{bits} is no set of owners: one is 0 to {}", labels::ALL),
                    )
                })
            }
        }
    }
}
