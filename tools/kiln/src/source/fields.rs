//! The named fields of directives, and the ranges of numbers: one table for
//! each directive, in the order of the image's line.

use super::names::Names;
use super::parser::{Given, Value};
use super::{Error, Position};
use crate::labels;
use crate::ops;

/// Which numbers are right, and what they are called.
#[derive(Clone, Copy)]
pub struct Range {
    what: &'static str,
    least: i64,
    greatest: i64,
    /// Whether it is a place, and so below the size unless said otherwise.
    is_place: bool,
}

const fn range(what: &'static str, least: i64, greatest: i64) -> Range {
    Range { what, least, greatest, is_place: false }
}

const fn place(greatest: i64) -> Range {
    Range { what: "a place", least: 0, greatest, is_place: true }
}

const GREATEST_VALUE: i64 = u32::MAX as i64;
pub const GREATEST_SIZE: u32 = 2_048;
const GREATEST_LIMIT: i64 = 16_777_216;

pub const N: Range = range("n", 0, ops::GREATEST_N as i64);
pub const TARGET: Range = place(ops::GREATEST_N as i64);
pub const WORD: Range = range("a word", 0, GREATEST_VALUE);
pub const SPACE: Range = range("a number of words", 0, GREATEST_SIZE as i64);
const PLACE: Range = place(GREATEST_VALUE);
const LABEL: Range = range("a label", 0, labels::GREATEST as i64);

/// A field: its name, its range, and its value where it isn't given.
pub struct Field {
    name: &'static str,
    range: Range,
    default: Option<u32>,
}

const fn needed(name: &'static str, range: Range) -> Field {
    Field { name, range, default: None }
}

const fn optional(name: &'static str, range: Range, default: u32) -> Field {
    Field { name, range, default: Some(default) }
}

pub const MACHINE: [Field; 6] = [
    needed("size", range("the size", 1, GREATEST_SIZE as i64)),
    needed("error", PLACE),
    needed("start", PLACE),
    needed("p", LABEL),
    needed("t", LABEL),
    needed("limit", range("the limit", 1, GREATEST_LIMIT)),
];
pub const GATE: [Field; 3] = [needed("place", PLACE), needed("p", LABEL), needed("t", LABEL)];
pub const REGISTER: [Field; 2] = [
    optional("label", LABEL, labels::LOWEST as u32),
    optional("value", range("a value", 0, GREATEST_VALUE), 0),
];

/// Where a block begins.
const AT: &str = "at";

/// The fields of a block, which begins here unless it says where.
pub fn block(here: u32) -> [Field; 2] {
    [optional(AT, range("an address", 0, GREATEST_SIZE as i64 - 1), here), needed("label", LABEL)]
}

/// Whether a block says where it begins.
pub fn says_where(block: &[Given]) -> bool {
    block.iter().any(|given| given.name.text == AT)
}

/// The size among a machine's fields, if it is right; what is wrong with it is
/// told with the other fields.
pub fn size(givens: &[Given], names: &Names) -> Option<u32> {
    let [field, ..] = MACHINE;
    let given = givens.iter().find(|given| given.name.text == field.name)?;
    let mut untold = Vec::new();
    Context { names, size: None, errors: &mut untold }.value(&given.value, &field.range)
}

/// What values are tried against.
pub struct Context<'a, 'b> {
    pub names: &'b Names<'a>,
    /// The size, where it is known.
    pub size: Option<u32>,
    pub errors: &'b mut Vec<Error>,
}

impl Context<'_, '_> {
    /// A value within a range, or none and an error.
    pub fn value(&mut self, value: &Value, range: &Range) -> Option<u32> {
        let number = value.expression.value(self.names, self.errors)?;
        let wrong = self.wrong(number, value.is_outside, range);
        let is_right = wrong.is_none();
        self.errors.extend(wrong.map(|message| Error::new(value.expression.at, message)));
        u32::try_from(number).ok().filter(|_| is_right)
    }

    fn wrong(&self, number: i64, is_outside: bool, range: &Range) -> Option<String> {
        if number < range.least || number > range.greatest {
            let Range { what, least, greatest, .. } = range;
            return Some(format!("{number} doesn't fit: {what} is {least} to {greatest}"));
        }
        if is_outside {
            return (!range.is_place)
                .then(|| format!("`!` is for places, and {} is none", range.what));
        }
        let size = self.size.filter(|size| range.is_place && number >= i64::from(*size))?;
        Some(format!(
            "place {number} is outside: the size is {size} (`!{number}` if that is meant)"
        ))
    }

    /// The values of a directive's fields, in the table's order, none for each
    /// that is missing or wrong.
    pub fn fields<const N: usize>(
        &mut self,
        at: Position,
        givens: &[Given],
        table: &[Field; N],
    ) -> [Option<u32>; N] {
        self.check_names(givens, table);
        std::array::from_fn(|index| self.field(at, givens, &table[index]))
    }

    fn field(&mut self, at: Position, givens: &[Given], field: &Field) -> Option<u32> {
        match givens.iter().find(|given| given.name.text == field.name) {
            Some(given) => self.value(&given.value, &field.range),
            None if field.default.is_some() => field.default,
            None => {
                self.errors.push(Error::new(at, format!("`{}=` is missing", field.name)));
                None
            }
        }
    }

    /// Reports a field that the directive doesn't have, or has twice.
    fn check_names(&mut self, givens: &[Given], table: &[Field]) {
        for (index, given) in givens.iter().enumerate() {
            let name = given.name.text;
            if !table.iter().any(|field| field.name == name) {
                let known: Vec<&str> = table.iter().map(|field| field.name).collect();
                let message = format!("unknown field `{name}`: they are {}", known.join(", "));
                self.errors.push(Error::new(given.name.at, message));
            } else if givens[..index].iter().any(|other| other.name.text == name) {
                self.errors.push(Error::new(given.name.at, format!("`{name}=` is given twice")));
            }
        }
    }
}
