//! Where everything goes: names get their values, and each word its address and
//! label. What a word holds is not asked yet.

use super::fields::{self, Context};
use super::lexer::Token;
use super::names::Names;
use super::parser::{Body, Given, Meaning, Operand, Statement, Value};
use super::{Definition, Error, Position};
use crate::labels::{self, NoOwner};
use crate::ops::Op;
use std::collections::HashSet;

/// A source laid out.
pub struct Layout<'a, 'b> {
    pub names: Names<'a>,
    pub machine: Option<Directive<'a, 'b>>,
    pub gates: Vec<Directive<'a, 'b>>,
    pub registers: Vec<(Option<u32>, Directive<'a, 'b>)>,
    pub words: Vec<Word<'a, 'b>>,
    pub errors: Vec<Error>,
    given: &'b [Definition],
    /// The definitions that a parameter has taken.
    taken: HashSet<&'a str>,
    block: Block,
    /// The names behind the last word.
    names_behind: Vec<Token<'a>>,
}

/// The fields of a directive, and where it stands.
#[derive(Clone, Copy)]
pub struct Directive<'a, 'b> {
    pub at: Position,
    pub givens: &'b [Given<'a>],
}

/// A word, or words without a line: where it stands in the source and in
/// memory, if that is known, its label and what it holds.
pub struct Word<'a, 'b> {
    pub at: Position,
    pub address: Option<u32>,
    pub label: Option<u32>,
    pub content: Content<'a, 'b>,
}

#[derive(Clone, Copy)]
pub enum Content<'a, 'b> {
    Op(&'static Op, &'b [Operand<'a>]),
    Value(&'b Value<'a>),
    /// So many words without a line.
    Space(u32),
    /// It can't be read, which is an error already.
    Broken,
}

impl Content<'_, '_> {
    /// How many addresses it takes.
    pub fn count(&self) -> u32 {
        match self {
            Content::Space(count) => *count,
            _ => 1,
        }
    }
}

/// The block that words go to.
enum Block {
    NotYet,
    At {
        next: u32,
        label: Option<u32>,
    },
    /// Its directive is wrong.
    Unknown,
}

/// Lays out the lines of a source; the definitions are for its parameters.
pub fn layout<'a, 'b>(statements: &'b [Statement<'a>], given: &'b [Definition]) -> Layout<'a, 'b> {
    let mut layout = Layout {
        names: Names::with_later(statements.iter().flat_map(defined).collect()),
        machine: None,
        gates: Vec::new(),
        registers: Vec::new(),
        words: Vec::new(),
        errors: Vec::new(),
        given,
        taken: HashSet::new(),
        block: Block::NotYet,
        names_behind: Vec::new(),
    };
    statements.iter().for_each(|statement| layout.add(statement));
    layout.check_definitions();
    layout
}

/// The names that a line defines.
fn defined<'a>(statement: &Statement<'a>) -> Vec<&'a str> {
    let mut names: Vec<&str> = statement.names.iter().map(|name| name.text).collect();
    if let Body::Set(meaning) | Body::Parameter(meaning) = &statement.body {
        names.push(meaning.name.text);
    }
    names
}

impl<'a, 'b> Layout<'a, 'b> {
    fn add(&mut self, statement: &'b Statement<'a>) {
        let at = statement.at;
        if let Body::Block(givens) = &statement.body {
            self.begin_block(at, givens);
        }
        statement.names.iter().for_each(|name| self.define_place(*name));
        match &statement.body {
            Body::Nothing | Body::Block(_) => {}
            Body::Op(op, operands) => self.add_word(at, Content::Op(op, operands)),
            Body::Words(values) => values
                .iter()
                .for_each(|value| self.add_word(value.expression.at, Content::Value(value))),
            Body::BrokenWord => self.add_word(at, Content::Broken),
            Body::BrokenBlock => self.block = Block::Unknown,
            Body::Space(value) => self.skip(at, value),
            Body::Machine(givens) => self.add_machine(Directive { at, givens }),
            Body::Gate(givens) => self.gates.push(Directive { at, givens }),
            Body::Register(number, givens) => {
                self.registers.push((*number, Directive { at, givens }))
            }
            Body::Owners(owners) => owners.iter().for_each(|owner| self.name_owner(owner)),
            Body::Set(meaning) => self.set(meaning),
            Body::Parameter(meaning) => self.take_parameter(meaning),
        }
    }

    fn context(&mut self) -> Context<'a, '_> {
        Context { names: &self.names, size: None, errors: &mut self.errors }
    }

    fn here(&self) -> Option<u32> {
        match self.block {
            Block::At { next, .. } => Some(next),
            Block::NotYet => Some(0),
            Block::Unknown => None,
        }
    }

    fn begin_block(&mut self, at: Position, givens: &[Given]) {
        let here = self.here();
        let table = fields::block(here.unwrap_or(0));
        let [next, label] = self.context().fields(at, givens, &table);
        let next = next.filter(|_| here.is_some() || fields::says_where(givens));
        if here.zip(next).is_some_and(|(here, next)| here != next) {
            self.refuse_names_behind();
        }
        self.names_behind.clear();
        self.block = match next {
            Some(next) => Block::At { next, label },
            None => Block::Unknown,
        };
    }

    /// A name before a block that begins elsewhere was meant for the block's
    /// first word, and would be the address behind the last one's.
    fn refuse_names_behind(&mut self) {
        let error = |name: &Token| {
            let message = format!("`{}` stands before a `.block` that begins elsewhere", name.text);
            Error::new(name.at, message)
        };
        self.errors.extend(self.names_behind.iter().map(error));
    }

    /// A name of the next word's address.
    fn define_place(&mut self, name: Token<'a>) {
        self.define(name.text, self.here().map(i64::from), name.at);
        self.names_behind.push(name);
    }

    fn define(&mut self, name: &'a str, value: Option<i64>, at: Position) {
        let defined = self.names.define(name, value, at);
        self.errors.extend(defined.err());
    }

    fn add_word(&mut self, at: Position, content: Content<'a, 'b>) {
        if let Block::NotYet = self.block {
            self.errors.push(Error::new(at, "a word before the first `.block` has no label"));
            self.block = Block::Unknown;
        }
        self.names_behind.clear();
        let address = self.here();
        let label = match &mut self.block {
            Block::At { next, label } => {
                *next += content.count();
                *label
            }
            _ => None,
        };
        self.words.push(Word { at, address, label, content });
    }

    /// Words without a line: of value 0 and the lowest label, so only a block
    /// of this label has them.
    fn skip(&mut self, at: Position, value: &Value) {
        let Some(count) = self.context().value(value, &fields::SPACE) else {
            self.block = Block::Unknown;
            return;
        };
        self.add_word(at, Content::Space(count));
        let label = self.words.last().and_then(|word| word.label);
        if count > 0 && label.is_some_and(|label| label != labels::LOWEST.into()) {
            let message =
                format!("words left to `.space` have label {}, unlike this block", labels::LOWEST);
            self.errors.push(Error::new(at, message));
        }
    }

    fn add_machine(&mut self, directive: Directive<'a, 'b>) {
        match self.machine {
            None => self.machine = Some(directive),
            Some(first) => {
                let message =
                    format!("a second `.machine`; the first is in line {}", first.at.line);
                self.errors.push(Error::new(directive.at, message));
            }
        }
    }

    fn name_owner(&mut self, owner: &Meaning) {
        let Some(bit) = owner.value.value(&self.names, &mut self.errors) else { return };
        let name = owner.name.text;
        let named = self.names.owners.name(name, bit);
        let message = named.err().map(|why| match why {
            NoOwner::NotOneBit => format!("{bit} is no owner: one is 1, 2, 4 or 8"),
            NoOwner::NameTaken => format!("owner `{name}` is named twice"),
            NoOwner::BitTaken(other) => format!("{bit} is the owner `{other}` already"),
        });
        self.errors.extend(message.map(|message| Error::new(owner.name.at, message)));
    }

    fn set(&mut self, meaning: &Meaning<'a>) {
        let value = meaning.value.value(&self.names, &mut self.errors);
        self.define(meaning.name.text, value, meaning.name.at);
    }

    /// A parameter has the value of the command line, or its own.
    fn take_parameter(&mut self, meaning: &Meaning<'a>) {
        let name = meaning.name.text;
        match self.given.iter().rev().find(|definition| definition.name == name) {
            Some(definition) => {
                self.taken.insert(name);
                self.define(name, Some(definition.value), meaning.name.at);
            }
            None => self.set(meaning),
        }
    }

    fn check_definitions(&mut self) {
        let unused =
            self.given.iter().filter(|definition| !self.taken.contains(definition.name.as_str()));
        let error = |definition: &Definition| {
            Error::whole(format!("-D {}: the source has no such `.parameter`", definition.name))
        };
        self.errors.extend(unused.map(error));
    }
}
