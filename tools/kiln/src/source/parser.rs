//! A line of a source, read: the names before it and what it says.

use super::expression::Expression;
use super::lexer::{self, Kind, Token};
use super::{Error, Position, Quoted};
use crate::labels;
use crate::ops::{Op, Piece};

pub type Parsed<T> = Result<T, Error>;

const COLON: &str = ":";
const EQUALS: &str = "=";
const COMMA: &str = ",";
/// Before a place that is outside the memory on purpose.
const OUTSIDE: &str = "!";
const REGISTER: char = 'R';
const REGISTERS: u32 = 16;
/// The register that no line can give a value or a label.
const ZERO_REGISTER: &str = "R0";
const WORD: &str = ".word";
const SPACE: &str = ".space";
const BLOCK: &str = ".block";

/// One line.
pub struct Statement<'a> {
    pub names: Vec<Token<'a>>,
    pub at: Position,
    pub body: Body<'a>,
}

/// What a line says behind its names.
pub enum Body<'a> {
    Nothing,
    Op(&'static Op, Vec<Operand<'a>>),
    Words(Vec<Value<'a>>),
    Space(Value<'a>),
    Block(Vec<Given<'a>>),
    Machine(Vec<Given<'a>>),
    Gate(Vec<Given<'a>>),
    /// None for a register that can't be given, which is an error already.
    Register(Option<u32>, Vec<Given<'a>>),
    Owners(Vec<Meaning<'a>>),
    Set(Meaning<'a>),
    Parameter(Meaning<'a>),
    /// A line that can't be read, and that would be a word.
    BrokenWord,
    /// A line that can't be read, and that would say where words go.
    BrokenBlock,
}

/// An operand's piece of the op, and what is given for it.
pub struct Operand<'a> {
    pub piece: Piece,
    pub argument: Argument<'a>,
}

pub enum Argument<'a> {
    /// None for a register that doesn't exist, which is an error already.
    Register(Option<u32>),
    Value(Value<'a>),
    Mark,
}

/// A number, and whether it is said to be a place outside.
pub struct Value<'a> {
    pub expression: Expression<'a>,
    pub is_outside: bool,
}

/// A field by name: `size=100`.
pub struct Given<'a> {
    pub name: Token<'a>,
    pub value: Value<'a>,
}

/// A name and what it is to stand for: `top = 620`.
pub struct Meaning<'a> {
    pub name: Token<'a>,
    pub value: Expression<'a>,
}

/// Reads a line. What is wrong goes to the errors.
pub fn statement<'a>(text: &'a str, line: usize, errors: &mut Vec<Error>) -> Statement<'a> {
    let tokens = lexer::tokens(text, line);
    let mut parser = Parser::new(&tokens);
    let names = parser.names_before();
    let first = parser.peek();
    let body = parser.body().unwrap_or_else(|error| {
        parser.errors.push(error);
        broken(&first)
    });
    errors.append(&mut parser.errors);
    Statement { names, at: first.at, body }
}

/// What a line that can't be read stands for, by its first token, so that the
/// lines behind it are where they would be.
fn broken<'a>(first: &Token) -> Body<'a> {
    match (first.kind, first.text) {
        (Kind::Name, _) | (_, WORD) => Body::BrokenWord,
        (_, BLOCK | SPACE) => Body::BrokenBlock,
        _ => Body::Nothing,
    }
}

pub struct Parser<'a> {
    tokens: Vec<Token<'a>>,
    next: usize,
    /// What is wrong and needn't end the reading of the line.
    errors: Vec<Error>,
}

impl<'a> Parser<'a> {
    /// A parser of the tokens of a line, the end among them.
    pub fn new(tokens: &[Token<'a>]) -> Parser<'a> {
        Parser { tokens: tokens.to_vec(), next: 0, errors: Vec::new() }
    }

    pub fn peek(&self) -> Token<'a> {
        self.tokens[self.next.min(self.tokens.len() - 1)]
    }

    fn advance(&mut self) -> Token<'a> {
        let token = self.peek();
        self.next += 1;
        token
    }

    /// Goes on behind a token of this text, if it is the next.
    pub fn take(&mut self, text: &str) -> bool {
        self.take_one_of(&[text]).is_some()
    }

    pub fn take_one_of(&mut self, texts: &[&str]) -> Option<&'a str> {
        let text = self.peek().text;
        texts.contains(&text).then(|| self.advance().text)
    }

    pub fn take_number(&mut self) -> Option<Token<'a>> {
        (self.peek().kind == Kind::Number).then(|| self.advance())
    }

    fn wanted<T>(&self, what: &str) -> Parsed<T> {
        let found = self.peek();
        Err(Error::new(found.at, format!("{what} is wanted here, not {}", Quoted(found.text))))
    }

    fn expect(&mut self, text: &str) -> Parsed<()> {
        if self.take(text) {
            return Ok(());
        }
        self.wanted(&format!("`{text}`"))
    }

    pub fn end(&mut self) -> Parsed<()> {
        match self.peek().kind {
            Kind::End => Ok(()),
            _ => self.wanted("the end of the line"),
        }
    }

    /// A name that isn't a register's.
    pub fn name(&mut self, what: &str) -> Parsed<Token<'a>> {
        let token = self.peek();
        if token.kind != Kind::Name {
            return self.wanted(what);
        }
        if is_register(token.text) {
            return self.wanted(&format!("{what}, and no register,"));
        }
        Ok(self.advance())
    }

    /// The names of a place, each with its colon.
    fn names_before(&mut self) -> Vec<Token<'a>> {
        let mut names = Vec::new();
        while self.peek().kind == Kind::Name && self.tokens[self.next + 1].text == COLON {
            let name = self.advance();
            self.advance();
            if is_register(name.text) {
                self.errors.push(Error::new(
                    name.at,
                    format!("`{}` is a register and can't be a name", name.text),
                ));
            } else {
                names.push(name);
            }
        }
        names
    }

    fn body(&mut self) -> Parsed<Body<'a>> {
        let first = self.peek();
        let body = match first.kind {
            Kind::End => return Ok(Body::Nothing),
            Kind::Name => self.op()?,
            Kind::Directive => self.directive()?,
            _ => return self.wanted("a name, an op or a directive"),
        };
        self.end()?;
        Ok(body)
    }

    fn op(&mut self) -> Parsed<Body<'a>> {
        let name = self.advance();
        let Some(op) = Op::named(name.text) else {
            return Err(Error::new(name.at, format!("unknown op `{}`", name.text)));
        };
        let operands: Parsed<Vec<Operand>> = op
            .pieces()
            .map(|piece| Ok(Operand { piece, argument: self.argument(piece)? }))
            .collect();
        let operands = operands.and_then(|operands| self.end().map(|()| operands));
        let hint = |error: Error| Error {
            message: format!("{}; write `{}`", error.message, op.pattern()),
            ..error
        };
        Ok(Body::Op(op, operands.map_err(hint)?))
    }

    fn argument(&mut self, piece: Piece) -> Parsed<Argument<'a>> {
        match piece {
            Piece::Register(_) => Ok(Argument::Register(self.register()?)),
            Piece::Number | Piece::Place => Ok(Argument::Value(self.value()?)),
            Piece::Mark(mark) => self.expect(mark).map(|()| Argument::Mark),
        }
    }

    fn register(&mut self) -> Parsed<Option<u32>> {
        let token = self.peek();
        if !is_register(token.text) {
            return self.wanted("a register, R0 to R15,");
        }
        self.advance();
        let number = (0..REGISTERS).find(|number| token.text == format!("{REGISTER}{number}"));
        if number.is_none() {
            let message = format!("no register `{}`: they are R0 to R15", token.text);
            self.errors.push(Error::new(token.at, message));
        }
        Ok(number)
    }

    fn value(&mut self) -> Parsed<Value<'a>> {
        let is_outside = self.take(OUTSIDE);
        Ok(Value { expression: self.expression()?, is_outside })
    }

    fn directive(&mut self) -> Parsed<Body<'a>> {
        let directive = self.advance();
        Ok(match directive.text {
            WORD => Body::Words(self.values()?),
            SPACE => Body::Space(self.value()?),
            BLOCK => Body::Block(self.until_end(Parser::given)?),
            ".machine" => Body::Machine(self.until_end(Parser::given)?),
            ".gate" => Body::Gate(self.until_end(Parser::given)?),
            ".register" => Body::Register(self.given_register()?, self.until_end(Parser::given)?),
            ".owners" => Body::Owners(self.until_end(Parser::meaning)?),
            ".set" => Body::Set(self.meaning()?),
            ".parameter" => Body::Parameter(self.meaning()?),
            text => return Err(Error::new(directive.at, format!("unknown directive `{text}`"))),
        })
    }

    /// The register of a line that gives it a value and a label. The loader refuses
    /// one for register 0, whatever it gives.
    fn given_register(&mut self) -> Parsed<Option<u32>> {
        let token = self.peek();
        let number = self.register()?;
        if token.text != ZERO_REGISTER {
            return Ok(number);
        }
        let message = format!(
            "{ZERO_REGISTER} can't be given: it is always value 0, label {}",
            labels::LOWEST
        );
        self.errors.push(Error::new(token.at, message));
        Ok(None)
    }

    /// Values, commas between them.
    fn values(&mut self) -> Parsed<Vec<Value<'a>>> {
        let mut values = vec![self.value()?];
        while self.take(COMMA) {
            values.push(self.value()?);
        }
        Ok(values)
    }

    fn name_and_equals(&mut self) -> Parsed<Token<'a>> {
        let name = self.name("a name")?;
        self.expect(EQUALS)?;
        Ok(name)
    }

    fn given(&mut self) -> Parsed<Given<'a>> {
        Ok(Given { name: self.name_and_equals()?, value: self.value()? })
    }

    fn meaning(&mut self) -> Parsed<Meaning<'a>> {
        Ok(Meaning { name: self.name_and_equals()?, value: self.expression()? })
    }

    /// One after another, to the end of the line.
    fn until_end<T>(&mut self, one: fn(&mut Self) -> Parsed<T>) -> Parsed<Vec<T>> {
        let mut all = Vec::new();
        while self.peek().kind != Kind::End {
            all.push(one(self)?);
        }
        Ok(all)
    }
}

/// Whether a name is that of a register, one that doesn't exist included.
pub fn is_register(name: &str) -> bool {
    name.strip_prefix(REGISTER).is_some_and(|digits| {
        !digits.is_empty() && digits.bytes().all(|digit| digit.is_ascii_digit())
    })
}
