//! Cutting the bytes of an image into records: of every length, in any order,
//! with empty ones between them, and the end behind them.

use super::record::Record;
use crate::generator::random::Random;

/// The greatest length that a record's first byte can tell.
pub const LONGEST: usize = 255;

/// Records that give nothing are put in, up to so many.
const MOST_EMPTY: u32 = 3;

/// A byte of memory and its address.
pub type Byte = (usize, u8);

/// A greatest length for the records of an image.
pub fn choose_longest(random: &mut Random) -> usize {
    match random.below(6) {
        0 => 1,
        1 => 4,
        2 => 16,
        3 => random.between(1, LONGEST as u32) as usize,
        _ => LONGEST,
    }
}

/// The records of these bytes, whose addresses rise, with the end.
pub fn cut(random: &mut Random, bytes: &[Byte], longest: usize) -> Vec<Record> {
    let runs = bytes.chunk_by(|(address, _), (next, _)| address + 1 == *next);
    let mut records: Vec<Record> = runs.flat_map(|run| cut_run(random, run, longest)).collect();
    match random.below(4) {
        0 => {}
        1 => records.reverse(),
        _ => random.shuffle(&mut records),
    }
    add_empty(random, &mut records);
    let address = if random.chance(50) { 0 } else { random.bits() as u16 };
    records.push(Record::end(address));
    records
}

/// Bytes that follow one another, in records of at most this length: as long as
/// can be, or of any.
fn cut_run(random: &mut Random, run: &[Byte], longest: usize) -> Vec<Record> {
    let (mut records, mut rest) = (Vec::new(), run);
    let is_even = random.chance(25);
    while let Some((address, _)) = rest.first() {
        let most = longest.min(rest.len());
        let length = if is_even { most } else { 1 + random.index(most) };
        let data = rest[..length].iter().map(|(_, byte)| *byte).collect();
        records.push(Record::data(*address as u16, data));
        rest = &rest[length..];
    }
    records
}

/// Records of length 0 between the others, at any address.
fn add_empty(random: &mut Random, records: &mut Vec<Record>) {
    let count = if random.chance(30) { random.between(1, MOST_EMPTY) } else { 0 };
    for _ in 0..count {
        let place = random.index(records.len() + 1);
        records.insert(place, Record::data(random.bits() as u16, Vec::new()));
    }
}
