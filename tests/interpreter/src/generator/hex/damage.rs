//! Damaged images from HEX: one for each cause, and for each order between two,
//! in the M text and in the records, on one line and on two.
//!
//! What refusal is due is known from how the image was damaged, not from the
//! loader, so the loader can be tried against it.

use super::draft::HexDraft;
use super::faults::{leaves_bytes, number, Fault, Lines, BYTE, ENDING, FORM};
use super::record::join;
use super::HexImage;
use crate::generator::faults::{self, Fault as LineFault};
use crate::generator::random::Random;
use crate::load::{Refusal, MAX_TEXT};

/// What can be wrong with the M text.
#[derive(Clone, Copy, Debug, PartialEq, Eq)]
pub enum TextFault {
    Empty,
    Long,
    NoLf,
    /// A fault of the first line: its form, a range or its pair.
    First(LineFault),
    Second,
}
use TextFault::{Empty, First, Long, Second};

const TEXT_FAULTS: [TextFault; 7] = [
    Empty,
    Long,
    TextFault::NoLf,
    First(LineFault::Form),
    First(LineFault::Range),
    First(LineFault::Pair),
    Second,
];

/// The faults of the records by what they touch: a line's form, its bytes, or the
/// ending, by which the text may be none at all.
#[derive(Clone, Copy, Debug, PartialEq, Eq)]
pub enum Class {
    Form,
    Byte,
    Ending,
    Nothing,
}
use Class::{Byte, Ending, Form, Nothing};

/// What is done to an image.
#[derive(Clone, Copy, Debug, PartialEq, Eq)]
pub enum Plan {
    One(Fault),
    /// A fault of form on a line that gives a wrong byte.
    OneLine(Fault),
    /// Two faults on two lines; the first, on the earlier line, counts.
    TwoLines(Class, Class),
    /// A fault at a line above 65,535.
    Far(Class),
    /// A fault of the M text alone.
    Text(TextFault),
    /// A fault of the M text's first line, and a second line.
    TextTwice(TextFault),
    /// A fault of the M text, which counts, and one of the records.
    Both(TextFault, Class),
}
use Plan::{Both, Far, One, OneLine, Text, TextTwice, TwoLines};

/// Lines that a fault is far behind.
const MANY: u32 = 65_536;

/// A damaged image, the refusal that is due, and what was done.
pub struct Damaged {
    pub image: HexImage,
    pub refusal: Refusal,
    pub plan: Plan,
}

/// All plans; they take turns.
pub fn plans() -> Vec<Plan> {
    let mut plans: Vec<Plan> = FORM.into_iter().chain(BYTE).chain(ENDING).map(One).collect();
    plans.extend(TEXT_FAULTS.map(Text));
    plans.extend(TEXT_FAULTS[3..6].iter().map(|fault| TextTwice(*fault)));
    plans.extend(FORM.into_iter().filter(|fault| leaves_bytes(*fault)).map(OneLine));
    let orders = [Form, Byte].map(|first| [Form, Byte, Ending].map(|later| TwoLines(first, later)));
    plans.extend(orders.into_iter().flatten());
    plans.extend([Form, Byte, Ending].map(Far));
    let classes = [Form, Byte, Ending, Nothing];
    let both = TEXT_FAULTS.map(|text| classes.map(|records| Both(text, records)));
    plans.extend(both.into_iter().flatten());
    plans
}

/// The name under which a plan is counted.
pub fn name(plan: Plan) -> String {
    format!("damage {plan:?}")
}

/// A good image damaged by the plan. Not every image takes every fault; another
/// one is tried then.
pub fn damage(random: &mut Random, plan: Plan) -> Damaged {
    loop {
        let draft = HexDraft::make(random);
        let mut lines = Lines::of(random, &draft);
        let first_line = draft.text();
        let Some(line) = break_records(random, &mut lines, plan) else {
            continue;
        };
        let (text, refusal) = match (plan, line) {
            (Text(fault) | Both(fault, _), _) => break_text(random, first_line, fault, false),
            (TextTwice(fault), _) => break_text(random, first_line, fault, true),
            (_, (number, line)) => (first_line, Refusal { number, line: line as u64 + 1 }),
        };
        let image = HexImage { text, hex: join(&lines.lines), label: draft.label };
        return Damaged { image, refusal, plan };
    }
}

/// A fault of the class.
fn any_of(random: &mut Random, class: Class) -> Fault {
    match class {
        Form => random.pick(&FORM),
        Byte => random.pick(&BYTE),
        Ending => random.pick(&[Fault::NoEnd, Fault::BehindEnd]),
        Nothing => Fault::EmptyText,
    }
}

/// Damages the records, if the plan is about them. Gives the number that is due
/// for them, and the line, counted from 0.
fn break_records(random: &mut Random, lines: &mut Lines, plan: Plan) -> Option<(u8, usize)> {
    let anywhere = lines.lines.len();
    let (fault, line) = match plan {
        One(fault) => (fault, lines.put(random, fault, anywhere)?),
        OneLine(form) => {
            let byte = random.pick(&BYTE);
            (form, lines.put_both(random, form, byte)?)
        }
        TwoLines(first, later) => {
            let (first, later) = (any_of(random, first), any_of(random, later));
            let last = lines.put(random, later, anywhere)?;
            (first, lines.put(random, first, last.checked_sub(1)?)?)
        }
        Far(class) => {
            let fault = any_of(random, class);
            let line = lines.put(random, fault, anywhere)?;
            (fault, line + lines.put_off(random, MANY) as usize)
        }
        Both(_, class) => {
            let fault = any_of(random, class);
            (fault, lines.put(random, fault, anywhere)?)
        }
        Text(_) | TextTwice(_) => return Some((0, 0)),
    };
    Some((number(fault), line))
}

/// Damages the M text, with a second line behind its first or not. Gives what is
/// left of it, and the refusal that is due.
fn break_text(
    random: &mut Random,
    mut text: Vec<u8>,
    fault: TextFault,
    has_second: bool,
) -> (Vec<u8>, Refusal) {
    let (number, line) = match fault {
        Empty | Long => (1, 0),
        TextFault::NoLf => (2, 1),
        First(fault) => (faults::number(fault), 1),
        Second => (4, 2),
    };
    match fault {
        Empty => text.clear(),
        Long => text.resize(MAX_TEXT + 1, b'9'),
        TextFault::NoLf => drop(text.pop()),
        First(fault) => text = break_first(random, &text, fault),
        Second => text.extend(second_line(random, &text)),
    }
    if has_second {
        text.extend(second_line(random, &text));
    }
    (text, Refusal { number, line })
}

/// The first line with a fault of its own.
fn break_first(random: &mut Random, text: &[u8], fault: LineFault) -> Vec<u8> {
    let line = String::from_utf8_lossy(text);
    let fields = line.trim_end().split(',').map(str::to_string).collect();
    let mut lines = faults::Lines { lines: vec![fields], names: Vec::new() };
    lines.apply(random, 0, &[fault]);
    (lines.lines[0].join(",") + "\n").into_bytes()
}

/// "any second line in it": of good form or not, ended or not, up to the greatest
/// length that a text can have.
fn second_line(random: &mut Random, first: &[u8]) -> Vec<u8> {
    let lines: [&[u8]; 13] = [
        first,
        b"M,8\n",
        b"G,0,240,240\n",
        b"G,0,0,240\n",
        b"R,0,240,0\n",
        b"R,1,240,1\n",
        b"W,0,240,1\n",
        b"W,0,240,1",
        b"\n",
        b"\r\n",
        b" ",
        b"x",
        b":00000001FF\n",
    ];
    if random.chance(10) {
        return vec![b'9'; MAX_TEXT - first.len()];
    }
    random.pick(&lines).to_vec()
}
