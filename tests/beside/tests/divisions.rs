//! Which divisions count as those in visible time on hidden operands: a count that
//! took in others would not say that these were tried.

mod common;

use beside::pairs::divisions::{expected, met};
use common::{on_hidden as image, trace, BOUND, LEVEL};
use interpreter::draft::Draft;
use interpreter::instruction::{encode_registers, op};
use interpreter::{Label, Pair};

/// The ends of the names that two images meet.
fn kinds(one: &Draft, other: &Draft) -> Vec<String> {
    let names = met(LEVEL, &trace(one), &trace(other), BOUND);
    assert!(names.iter().all(|name| expected().contains(name)));
    let ends = names.iter().map(|name| name.split_once("hidden operands ").unwrap().1);
    ends.map(str::to_string).collect()
}

#[test]
fn hidden_operands_that_differ_count_and_equal_ones_do_not() {
    for number in [op::DIVIDE, op::REMAINDER] {
        let one = image(number, 17, 5);
        assert_eq!(kinds(&one, &image(number, 17, 6)), ["that differ, passed"]);
        assert_eq!(kinds(&one, &image(number, 18, 5)), ["that differ, passed"]);
        assert_eq!(kinds(&one, &one).len(), 0);
        let [first, ..] = &met(LEVEL, &trace(&one), &trace(&image(number, 1, 1)), BOUND)[..] else {
            panic!("nothing is met");
        };
        assert!(first.starts_with(&format!("pairs with op {number} in visible time")));
    }
}

#[test]
fn a_divisor_that_is_0_in_one_alone_counts() {
    let (one, other) = (image(op::DIVIDE, 17, 5), image(op::DIVIDE, 17, 0));
    let due = ["that differ, passed", "of which the divisor is 0 in one alone"];
    assert_eq!(kinds(&one, &other), due);
    assert_eq!(kinds(&other, &one), due);
}

#[test]
fn a_failed_one_and_one_for_register_0_count_apart() {
    let failing = |divisor| {
        let mut draft = image(op::DIVIDE, 17, divisor);
        draft.register(1, 240, 77);
        draft
    };
    assert_eq!(kinds(&failing(5), &failing(6)), ["that differ, failed"]);
    let for_zero = |divisor| {
        let mut draft = image(op::DIVIDE, 17, divisor);
        draft.word(0, 240, encode_registers(op::DIVIDE, 0, 2, 3, 0));
        draft
    };
    let due = ["that differ, with register 0 for the result"];
    assert_eq!(kinds(&for_zero(5), &for_zero(6)), due);
}

/// Of two images that are changed in the same way nothing counts.
fn counts_nothing(change: impl Fn(&mut Draft)) {
    let [mut one, mut other] = [5, 6].map(|divisor| image(op::DIVIDE, 17, divisor));
    change(&mut one);
    change(&mut other);
    assert_eq!(kinds(&one, &other).len(), 0);
}

#[test]
fn what_is_seen_hidden_time_other_ops_and_what_is_not_done_do_not_count() {
    counts_nothing(|draft| draft.registers[2..=3].iter_mut().for_each(|r| r.label = LEVEL));
    counts_nothing(|draft| draft.pair = Pair::new(240, 255));
    counts_nothing(|draft| draft.pair = Pair::new(255, 255));
    counts_nothing(|draft| draft.words[0].value = encode_registers(op::MULTIPLY, 1, 2, 3, 0));
    counts_nothing(|draft| draft.words[0].label = Label(255));
    counts_nothing(|draft| draft.limit = 33);
}

#[test]
fn what_ends_at_the_bound_does_not_count() {
    let [one, other] = [5, 6].map(|divisor| trace(&image(op::DIVIDE, 17, divisor)));
    assert_eq!(met(LEVEL, &one, &other, 34).len(), 0);
    assert_eq!(met(LEVEL, &one, &other, 35).len(), 1);
}
