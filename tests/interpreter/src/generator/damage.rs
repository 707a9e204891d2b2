//! Damaged images: one for each refusal, and for each order between two, on the
//! same line and on two lines.
//!
//! What refusal is due is known from how the image was damaged, not from the
//! loader, so the loader can be tried against it.

use super::faults::Fault::{self, Form, GatePair, Kind, Pair, Range, Rising, Zero};
use super::faults::{number, Lines};
use super::random::Random;
use crate::draft::join_lines;
use crate::load::{Refusal, MAX_TEXT};

/// What is done to an image.
#[derive(Clone, Copy, Debug, PartialEq, Eq)]
pub enum Plan {
    /// No byte at all.
    Empty,
    /// Above 65,535 bytes, otherwise good or with one more fault.
    Long(Option<Fault>),
    /// 65,535 bytes exactly, the last line of bad form.
    AlmostLong,
    One(Fault),
    /// Two faults on one line; the first is the one that counts.
    OneLine(Fault, Fault),
    /// Two faults on two lines; the first, on the earlier line, counts.
    TwoLines(Fault, Fault),
    /// A ninth gate, with another fault that is tried before it or, of its pair,
    /// after it, or with none.
    NinthGate(Option<Fault>),
    /// The last LF missing, with another fault on that line or none.
    MissingEnd(Option<Fault>),
    /// Nothing but a first line without its LF, with another fault on it or none.
    LoneFirst(Option<Fault>),
    /// One more LF at the end.
    ExtraEnd,
}
use Plan::{
    AlmostLong, Empty, ExtraEnd, LoneFirst, Long, MissingEnd, NinthGate, One, OneLine, TwoLines,
};

/// All plans; they take turns.
pub const PLANS: [Plan; 89] = [
    Empty,
    Long(None),
    Long(Some(Form)),
    Long(Some(Kind)),
    Long(Some(Range)),
    Long(Some(Rising)),
    Long(Some(Pair)),
    Long(Some(Zero)),
    Long(Some(GatePair)),
    AlmostLong,
    One(Form),
    One(Kind),
    One(Range),
    One(Rising),
    One(Pair),
    One(Zero),
    One(GatePair),
    One(Form),
    One(Range),
    OneLine(Form, Kind),
    OneLine(Form, Range),
    OneLine(Form, Rising),
    OneLine(Form, Pair),
    OneLine(Kind, Range),
    OneLine(Range, Rising),
    OneLine(Range, Pair),
    OneLine(Form, Zero),
    OneLine(Kind, Zero),
    OneLine(Range, Zero),
    OneLine(Rising, Zero),
    OneLine(Form, GatePair),
    OneLine(Kind, GatePair),
    OneLine(Range, GatePair),
    TwoLines(Form, Form),
    TwoLines(Form, Kind),
    TwoLines(Form, Range),
    TwoLines(Form, Rising),
    TwoLines(Kind, Form),
    TwoLines(Kind, Kind),
    TwoLines(Kind, Range),
    TwoLines(Kind, Rising),
    TwoLines(Range, Form),
    TwoLines(Range, Kind),
    TwoLines(Range, Range),
    TwoLines(Range, Rising),
    TwoLines(Rising, Form),
    TwoLines(Rising, Kind),
    TwoLines(Rising, Range),
    TwoLines(Rising, Rising),
    TwoLines(Pair, Form),
    TwoLines(Pair, Kind),
    TwoLines(Pair, Range),
    TwoLines(Pair, Rising),
    TwoLines(Form, Zero),
    TwoLines(Kind, Zero),
    TwoLines(Range, Zero),
    TwoLines(Rising, Zero),
    TwoLines(Pair, Zero),
    TwoLines(Zero, Form),
    TwoLines(Zero, Kind),
    TwoLines(Zero, Range),
    TwoLines(Zero, Rising),
    TwoLines(Zero, Zero),
    TwoLines(Form, GatePair),
    TwoLines(Kind, GatePair),
    TwoLines(Range, GatePair),
    TwoLines(Rising, GatePair),
    TwoLines(Pair, GatePair),
    TwoLines(Zero, GatePair),
    TwoLines(GatePair, Form),
    TwoLines(GatePair, Kind),
    TwoLines(GatePair, Range),
    TwoLines(GatePair, Rising),
    TwoLines(GatePair, Zero),
    TwoLines(GatePair, GatePair),
    NinthGate(None),
    NinthGate(Some(Form)),
    NinthGate(Some(Kind)),
    NinthGate(Some(GatePair)),
    MissingEnd(None),
    MissingEnd(Some(Kind)),
    MissingEnd(Some(Range)),
    MissingEnd(Some(Rising)),
    MissingEnd(Some(Zero)),
    MissingEnd(Some(GatePair)),
    LoneFirst(None),
    LoneFirst(Some(Range)),
    LoneFirst(Some(Pair)),
    ExtraEnd,
];

/// A damaged text, the refusal that is due, and what was done.
pub struct Damaged {
    pub text: Vec<u8>,
    pub refusal: Refusal,
    pub names: Vec<String>,
}

/// A good image of some gates, registers and words, damaged by the plan.
pub fn damage(random: &mut Random, plan: Plan) -> Damaged {
    let gates = if matches!(plan, NinthGate(_)) { 8 } else { random.between(2, 4) };
    let mut lines = Lines::good(random, gates);
    lines.names.push(format!("damage {plan:?}"));
    let last = match plan {
        MissingEnd(Some(Zero)) => lines.first_of("R"),
        MissingEnd(Some(GatePair)) => lines.first_of("G"),
        _ => lines.lines.len() - 1,
    };
    let (refusal, end) = match plan {
        Empty => return finish(lines, (1, 0), |_| Vec::new()),
        Long(fault) => {
            if let Some(fault) = fault {
                lines.put(random, &[fault]);
            }
            return finish(lines, (1, 0), |text| lengthen(text, MAX_TEXT + 1));
        }
        AlmostLong => {
            return finish(lines, (2, last + 2), |text| lengthen(text, MAX_TEXT));
        }
        One(fault) => ((number(fault), lines.put(random, &[fault]) + 1), "\n"),
        OneLine(fault, other) => ((number(fault), lines.put(random, &[fault, other]) + 1), "\n"),
        TwoLines(fault, other) => ((number(fault), lines.put_two(random, fault, other) + 1), "\n"),
        NinthGate(fault) => (lines.add_ninth_gate(random, fault), "\n"),
        MissingEnd(fault) => (lines.end_at(random, last, fault), ""),
        LoneFirst(fault) => (lines.end_at(random, 0, fault), ""),
        ExtraEnd => ((2, last + 2), "\n\n"),
    };
    finish(lines, refusal, |mut text| {
        text.pop();
        text.extend_from_slice(end.as_bytes());
        text
    })
}

/// Fills a text up with a last line of nines.
fn lengthen(mut text: Vec<u8>, length: usize) -> Vec<u8> {
    text.resize(length - 1, b'9');
    text.push(b'\n');
    text
}

/// Joins the fields and lines; the text as a whole may then be changed.
fn finish(lines: Lines, due: (u8, usize), change: impl Fn(Vec<u8>) -> Vec<u8>) -> Damaged {
    let joined: Vec<String> = lines.lines.iter().map(|fields| fields.join(",")).collect();
    let refusal = Refusal { number: due.0, line: due.1 as u64 };
    Damaged { text: change(join_lines(&joined)), refusal, names: lines.names }
}
