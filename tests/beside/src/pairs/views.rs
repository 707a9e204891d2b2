//! What is listed of a pair: "Two runs that the base theorem calls alike must
//! list the same at every tick."

use super::make::Pair;
use crate::buffers::{Buffer, Lent};
use crate::calls::{number, Calls, Viewer, OUTPUT_SHORT, TICK_LATE};
use crate::tally::Tally;
use interpreter::draft::Draft;
use interpreter::generator::random::Random;

/// So many of the ticks that hold are tried, where there are more.
const TICKS: u64 = 6;

/// No line of a listing is longer, with its LF.
const LINE: usize = 40;

/// What must come up.
pub const EXPECTED: [&str; 4] = [
    "views compared",
    "views compared with a line H",
    "views compared in an output too short",
    "views compared above the limit",
];

/// What a view answers, and the output that it leaves.
#[derive(PartialEq, Eq)]
pub struct Listed {
    answer: u64,
    output: Vec<u8>,
}

/// Output enough for every listing of a pair's images: a line for the control,
/// two for calls, and one for each register and word.
pub fn room(pair: &Pair) -> usize {
    LINE * (3 + pair.one.registers.len() + pair.one.words.len())
}

/// The view of one image, in memory of any lengths, with what came before in it.
fn listed(
    calls: &dyn Calls,
    random: &mut Random,
    draft: &Draft,
    viewer: Viewer,
    output: usize,
) -> Listed {
    let size = draft.words.len();
    let words: Vec<u32> = (0..size + random.index(9)).map(|_| random.bits()).collect();
    let labels: Vec<u8> = (0..size + random.index(9)).map(|_| random.bits() as u8).collect();
    let mut lent = Lent::of(random, &[], &words, &labels);
    lent.output = Buffer::around(&vec![b'.'; output], b'.');
    let answer = lent.view(calls, &draft.text(), viewer);
    Listed { answer, output: lent.output.get().to_vec() }
}

/// What both images of a pair give at a tick, in an output of this length; nothing
/// where they differ.
pub fn listed_alike(
    calls: &dyn Calls,
    random: &mut Random,
    pair: &Pair,
    tick: u64,
    output: usize,
) -> Option<Listed> {
    let viewer = Viewer { label: pair.level, tick };
    let one = listed(calls, random, &pair.one, viewer, output);
    let other = listed(calls, random, &pair.other, viewer, output);
    (one == other).then_some(one)
}

/// The first of some ticks below the bound, and of one above the limit, at which
/// the pair is not listed alike. The output is long enough, or of any length.
pub fn listed_apart(
    calls: &dyn Calls,
    random: &mut Random,
    tally: &mut Tally,
    pair: &Pair,
    bound: u64,
) -> Option<u64> {
    for tick in choose_ticks(random, bound, pair.one.limit) {
        let room = room(pair);
        let output = if random.chance(80) { room } else { random.index(room) };
        let Some(Listed { answer, output }) = listed_alike(calls, random, pair, tick, output)
        else {
            return Some(tick);
        };
        tally.count("views compared");
        tally.count_if(output.starts_with(b"H"), "views compared with a line H");
        let number = number(answer);
        tally.count_if(number == OUTPUT_SHORT, "views compared in an output too short");
        tally.count_if(number == TICK_LATE, "views compared above the limit");
    }
    None
}

/// Ticks below the bound, the last one among them; and one above the limit, at
/// which nothing is asked of the runs.
fn choose_ticks(random: &mut Random, bound: u64, limit: u64) -> Vec<u64> {
    let mut ticks: Vec<u64> = match bound {
        0..=TICKS => (0..bound).collect(),
        _ => (1..TICKS).map(|_| u64::from(random.below(bound as u32))).chain([bound - 1]).collect(),
    };
    if random.chance(5) {
        ticks.push(limit + 1);
    }
    ticks
}
