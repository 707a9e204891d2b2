//! The five timing loops: small images that loop until the longest limit.

use crate::draft::Draft;
use crate::instruction::{encode, encode_registers, op};
use crate::label::Pair;
use crate::machine::MAX_LIMIT;

/// A loop's name and its image.
pub struct Loop {
    pub name: &'static str,
    pub image: Draft,
}

/// The five loops in the order in which they are timed.
pub fn loops() -> [Loop; 5] {
    [
        Loop { name: "arithmetic", image: arithmetic() },
        Loop { name: "memory", image: memory() },
        Loop { name: "failed-checks", image: failed_checks() },
        Loop { name: "multiplies", image: multiplies() },
        Loop { name: "upcalls", image: upcalls() },
    ]
}

/// A branch to the first word that is always taken.
fn back_to_start() -> u32 {
    encode(op::BRANCH_EQUAL, 0, 0, 0)
}

/// Seven ops of one tick each; every result goes into a later one.
fn arithmetic() -> Draft {
    let mut image = Draft::of_code(
        &[
            encode_registers(op::ADD, 1, 1, 2, 0),
            encode_registers(op::SUBTRACT, 3, 3, 1, 0),
            encode_registers(op::AND, 4, 1, 3, 0),
            encode_registers(op::OR, 5, 4, 2, 0),
            encode_registers(op::XOR, 6, 5, 1, 0),
            encode_registers(op::LESS, 7, 6, 3, 0),
            back_to_start(),
        ],
        MAX_LIMIT,
    );
    image.register(1, 240, 1);
    image.register(2, 240, 2_654_435_761);
    image
}

/// Two loads, two stores and an add between them, on three words of data.
fn memory() -> Draft {
    let mut image = Draft::of_code(
        &[
            encode(op::LOAD, 3, 1, 0),
            encode_registers(op::ADD, 3, 3, 2, 0),
            encode(op::STORE, 3, 1, 0),
            encode(op::LOAD, 5, 4, 0),
            encode(op::STORE, 5, 6, 0),
            back_to_start(),
            1_000,
            2_000,
            0,
        ],
        MAX_LIMIT,
    );
    image.register(1, 240, 6);
    image.register(2, 240, 40_503);
    image.register(4, 240, 7);
    image.register(6, 240, 8);
    image
}

/// Eight ops whose destination label is below the pc label, so that all pass by.
fn failed_checks() -> Draft {
    let mut image = Draft::of_code(
        &[
            encode(op::SET, 1, 0, 5),
            encode_registers(op::ADD, 1, 2, 3, 0),
            encode_registers(op::XOR, 1, 2, 3, 0),
            encode_registers(op::LESS, 1, 2, 3, 0),
            encode(op::LOAD, 1, 4, 0),
            encode(op::STORE, 2, 4, 0),
            encode(op::READ_CLOCK, 1, 0, 0),
            encode(op::RAISE, 1, 5, 0),
            back_to_start(),
            77,
        ],
        MAX_LIMIT,
    );
    image.pair = Pair::new(255, 255);
    image.register(2, 255, 3);
    image.register(3, 255, 4);
    image.register(4, 240, 9);
    image.register(5, 240, 255);
    image
}

/// Multiplies by factors of 0, 1, 5 and 32 bits, and by a factor that the
/// timing label hides.
fn multiplies() -> Draft {
    let mut image = Draft::of_code(
        &[
            encode_registers(op::MULTIPLY, 1, 2, 3, 0),
            encode_registers(op::MULTIPLY, 4, 4, 5, 0),
            encode_registers(op::MULTIPLY, 6, 7, 8, 0),
            encode_registers(op::MULTIPLY, 9, 9, 10, 0),
            encode_registers(op::MULTIPLY, 11, 11, 12, 0),
            back_to_start(),
        ],
        MAX_LIMIT,
    );
    image.register(2, 240, 12_345);
    image.register(4, 240, 99);
    image.register(5, 240, 1);
    image.register(7, 240, 54_321);
    image.register(8, 240, 16);
    image.register(9, 240, 3);
    image.register(10, 240, u32::MAX);
    image.register(11, 255, 7);
    image.register(12, 255, 7);
    image
}

/// An upcall to the labels 255, three ops in it, op 19, and a branch back.
fn upcalls() -> Draft {
    let mut image = Draft::of_code(
        &[
            encode_registers(op::UPCALL, 1, 2, 2, 3),
            encode_registers(op::ADD, 4, 4, 5, 0),
            encode_registers(op::XOR, 6, 6, 4, 0),
            encode_registers(op::LESS, 7, 6, 4, 0),
            encode(op::END_UPCALL, 0, 0, 0),
            back_to_start(),
        ],
        MAX_LIMIT,
    );
    image.register(1, 240, 4);
    image.register(2, 240, 255);
    image.register(3, 240, 5);
    image.register(4, 255, 1);
    image.register(5, 255, 2_654_435_761);
    image.register(6, 255, 0);
    image.register(7, 255, 0);
    image.register(15, 255, 0);
    image
}
