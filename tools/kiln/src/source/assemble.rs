//! From a source's text to an image's lines, or to all that is wrong with it.

use super::fields::{self, Context};
use super::layout::{layout, Content, Directive, Layout, Word};
use super::parser::{self, Argument, Operand, Statement};
use super::{Definition, Error, Position};
use crate::image::{self, Cell, Gate, Line, Machine};
use crate::labels::LOWEST;
use crate::library::{self, Pair};
use crate::ops::{Op, Piece};
use crate::refusals;
use std::collections::BTreeMap;
use std::ops::Range;

/// An image's line, and where in the source it comes from.
pub struct Origin {
    pub line: Line,
    pub at: Position,
    /// The op that the source has there.
    pub op: Option<&'static Op>,
}

/// An image assembled, line by line.
pub struct Assembled {
    pub lines: Vec<Origin>,
}

impl Assembled {
    pub fn image(&self) -> String {
        image::written(self.lines.iter().map(|origin| &origin.line))
    }
}

/// Assembles a source. The definitions are for its parameters.
pub fn assemble(source: &str, given: &[Definition]) -> Result<Assembled, Vec<Error>> {
    let mut errors = Vec::new();
    let read = |(index, text)| parser::statement(text, index + 1, &mut errors);
    let statements: Vec<Statement> = source.lines().enumerate().map(read).collect();
    let mut layout = layout(&statements, given);
    errors.append(&mut layout.errors);
    let assembled = Assembler::new(&layout, &mut errors).assemble();
    errors.sort();
    match errors.is_empty() {
        true => Ok(assembled),
        false => Err(errors),
    }
}

struct Assembler<'a, 'b> {
    layout: &'b Layout<'a, 'b>,
    context: Context<'a, 'b>,
    lines: Vec<Origin>,
    /// The addresses that have a word or a space, with the source's line.
    taken: BTreeMap<u32, usize>,
}

/// What stands in the line of a gate whose pair is wrong.
const LOWEST_PAIR: Pair = Pair { pc_label: LOWEST, timing_label: LOWEST };

/// Registers by number or words by address.
type Cells = BTreeMap<u32, Origin>;

impl<'a, 'b> Assembler<'a, 'b> {
    fn new(layout: &'b Layout<'a, 'b>, errors: &'b mut Vec<Error>) -> Assembler<'a, 'b> {
        let context = Context { names: &layout.names, size: None, errors };
        Assembler { layout, context, lines: Vec::new(), taken: BTreeMap::new() }
    }

    fn assemble(mut self) -> Assembled {
        let layout = self.layout;
        self.machine();
        layout.gates.iter().for_each(|gate| self.gate(gate));
        let mut registers = Cells::new();
        layout.registers.iter().for_each(|register| self.register(register, &mut registers));
        let mut words = Cells::new();
        layout.words.iter().for_each(|word| self.word(word, &mut words));
        self.lines.extend(registers.into_values().chain(words.into_values()));
        let assembled = Assembled { lines: self.lines };
        let refused = refused(&assembled, self.context.errors);
        self.context.errors.extend(refused);
        assembled
    }

    fn machine(&mut self) {
        let Some(Directive { at, givens }) = self.layout.machine else {
            let start = Position { line: 1, column: 1 };
            return self
                .context
                .errors
                .push(Error::new(start, "there is no `.machine` in this source"));
        };
        self.context.size = fields::size(givens, self.context.names);
        let [size, error, start, p, t, limit] = self.context.fields(at, givens, &fields::MACHINE);
        let pair = self.pair(at, "the pair", p.zip(t));
        let (Some(size), Some(error), Some(start), Some(pair), Some(limit)) =
            (size, error, start, pair, limit)
        else {
            return;
        };
        let Pair { pc_label: p, timing_label: t } = pair;
        let machine = Machine { size, error, start, p, t, limit };
        self.lines.push(Origin { line: Line::Machine(machine), at, op: None });
    }

    /// A valid pair; or none, and an error if its labels are right.
    fn pair(&mut self, at: Position, name: &str, labels: Option<(u32, u32)>) -> Option<Pair> {
        let (p, t) = labels?;
        let pair = Pair { pc_label: label(p), timing_label: label(t) };
        let is_valid = library::is_valid_pair(pair);
        if !is_valid {
            let message =
                format!("{name} {p}, {t} isn't valid: p and t must be sound, and p must flow to t");
            self.context.errors.push(Error::new(at, message));
        }
        is_valid.then_some(pair)
    }

    /// A gate that is wrong has a line, too, which the loader takes: so gates are
    /// counted, and the loader is asked about the lines behind it.
    fn gate(&mut self, directive: &Directive) {
        let Directive { at, givens } = *directive;
        let [place, p, t] = self.context.fields(at, givens, &fields::GATE);
        let pair = self.pair(at, "the gate's pair", p.zip(t)).unwrap_or(LOWEST_PAIR);
        let Pair { pc_label: p, timing_label: t } = pair;
        let gate = Gate { place: place.unwrap_or_default(), p, t };
        self.lines.push(Origin { line: Line::Gate(gate), at, op: None });
    }

    fn register(&mut self, (number, directive): &(Option<u32>, Directive), registers: &mut Cells) {
        let Directive { at, givens } = *directive;
        let values = self.context.fields(at, givens, &fields::REGISTER);
        let (Some(number), [Some(of), Some(value)]) = (*number, values) else { return };
        let line = Line::Register(Cell { number, label: label(of), value });
        if let Some(first) = registers.get(&number) {
            let message = format!("R{number} is given already, in line {}", first.at.line);
            return self.context.errors.push(Error::new(at, message));
        }
        registers.insert(number, Origin { line, at, op: None });
    }

    fn word(&mut self, word: &Word, words: &mut Cells) {
        let at = word.at;
        let (value, op) = match word.content {
            Content::Op(op, operands) => (self.encode(op, operands), Some(op)),
            Content::Value(value) => (self.context.value(value, &fields::WORD), None),
            Content::Space(_) | Content::Broken => (None, None),
        };
        let Some(number) = word.address else { return };
        let is_free = self.take(at, number..number + word.content.count());
        if is_free && !matches!(word.content, Content::Space(_)) {
            let label = label(word.label.unwrap_or_default());
            let line = Line::Word(Cell { number, label, value: value.unwrap_or_default() });
            words.insert(number, Origin { line, at, op });
        }
    }

    /// Takes addresses for a word or a space, if they are there and free.
    fn take(&mut self, at: Position, addresses: Range<u32>) -> bool {
        if self.context.size.is_none() && addresses.end > fields::GREATEST_SIZE {
            // Outside any memory; that the size is wrong is told already.
            return false;
        }
        let outside = self.context.size.filter(|size| addresses.end > *size);
        let taken = self.taken.range(addresses.clone()).next();
        let wrong = match (outside, taken) {
            _ if addresses.is_empty() => None,
            (Some(size), _) => {
                Some(format!("address {} is outside: the size is {size}", addresses.end - 1))
            }
            (None, Some((address, line))) => {
                Some(format!("address {address} is taken already, in line {line}"))
            }
            (None, None) => None,
        };
        let is_right = wrong.is_none();
        self.context.errors.extend(wrong.map(|message| Error::new(at, message)));
        if is_right {
            self.taken.extend(addresses.map(|address| (address, at.line)));
        }
        is_right
    }

    /// The word of an op, none if an operand is wrong.
    fn encode(&mut self, op: &Op, operands: &[Operand]) -> Option<u32> {
        let values: Vec<Option<u32>> =
            operands.iter().map(|operand| self.operand(operand)).collect();
        values.into_iter().try_fold(op.bare(), |word, bits| Some(word + bits?))
    }

    fn operand(&mut self, operand: &Operand) -> Option<u32> {
        let value = match (&operand.argument, operand.piece) {
            (Argument::Register(number), _) => *number,
            (Argument::Value(value), Piece::Place) => self.context.value(value, &fields::TARGET),
            (Argument::Value(value), _) => self.context.value(value, &fields::N),
            (Argument::Mark, _) => Some(0),
        };
        value.map(|value| operand.piece.encode(value))
    }
}

/// A number that the table of fields has let pass as a label.
fn label(number: u32) -> u8 {
    u8::try_from(number).expect("a label is at most 255")
}

/// What the library's loader says against the image, unless something is said
/// against that line of the source already.
fn refused(assembled: &Assembled, errors: &[Error]) -> Option<Error> {
    let Some(Line::Machine(_)) = assembled.lines.first().map(|first| first.line) else {
        return None;
    };
    let text = assembled.image();
    let refusal = library::Machine::load(text.as_bytes()).err()?;
    let at = assembled.lines[refusal.beside.max(1) - 1].at;
    let is_known = errors.iter().any(|error| error.at.is_some_and(|known| known.line == at.line));
    let message = format!(
        "the loader refuses this: {}, {}",
        refusal.number,
        refusals::cause(text.as_bytes(), &refusal)
    );
    (!is_known).then(|| Error::new(at, message))
}
