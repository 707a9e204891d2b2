//! Which multiplies count as those in visible time on a hidden factor of other ticks:
//! a count that took in others would not say that these were tried.

mod common;

use beside::pairs::multiplies::{expected, met};
use common::{on_hidden, trace, BOUND, LEVEL};
use interpreter::draft::Draft;
use interpreter::instruction::{encode_registers, op};
use interpreter::{Label, Pair};

/// R1 := R2 × R3; register 1 and the factors are hidden.
fn image(left: u32, right: u32) -> Draft {
    on_hidden(op::MULTIPLY, left, right)
}

/// The ends of the names that two images meet.
fn kinds(one: &Draft, other: &Draft) -> Vec<String> {
    let names = met(LEVEL, &trace(one), &trace(other), BOUND);
    assert!(names.iter().all(|name| expected().contains(name)));
    let ends = names.iter().map(|name| name.split_once("on a hidden ").unwrap().1);
    ends.map(str::to_string).collect()
}

#[test]
fn a_hidden_factor_counts_where_its_counts_of_bits_give_other_ticks() {
    let one = image(5, 16);
    assert_eq!(kinds(&one, &image(5, 15)), ["Rc of other ticks, passed"]);
    assert_eq!(kinds(&one, &image(16, 16)), ["Rb of other ticks, passed"]);
    let both = ["Rb of other ticks, passed", "Rc of other ticks, passed"];
    assert_eq!(kinds(&one, &image(0, u32::MAX)), both);
}

#[test]
fn equal_factors_and_counts_of_the_same_ticks_do_not() {
    let one = image(5, 16);
    for other in [image(5, 16), image(5, 17), image(8, 16), image(15, 255)] {
        assert_eq!(kinds(&one, &other).len(), 0);
    }
}

#[test]
fn of_two_factors_only_the_one_that_is_hidden_counts() {
    let labelled = |register: usize, left, right| {
        let mut draft = image(left, right);
        draft.registers[register].label = LEVEL;
        draft
    };
    // What is seen is the same in both.
    assert_eq!(kinds(&labelled(2, 5, 0), &labelled(2, 5, 1)), ["Rc of other ticks, passed"]);
    assert_eq!(kinds(&labelled(3, 0, 5), &labelled(3, 1, 5)), ["Rb of other ticks, passed"]);
}

#[test]
fn a_failed_one_and_one_for_register_0_count_apart() {
    let failing = |right| {
        let mut draft = image(5, right);
        draft.register(1, 240, 77);
        draft
    };
    assert_eq!(kinds(&failing(15), &failing(16)), ["Rc of other ticks, failed"]);
    let for_zero = |right| {
        let mut draft = image(5, right);
        draft.word(0, 240, encode_registers(op::MULTIPLY, 0, 2, 3, 0));
        draft
    };
    let due = ["Rc of other ticks, with register 0 for the result"];
    assert_eq!(kinds(&for_zero(15), &for_zero(16)), due);
}

/// Of two images that are changed in the same way nothing counts.
fn counts_nothing(change: impl Fn(&mut Draft)) {
    let [mut one, mut other] = [15, 16].map(|right| image(5, right));
    change(&mut one);
    change(&mut other);
    assert_eq!(kinds(&one, &other).len(), 0);
}

#[test]
fn what_is_seen_hidden_time_other_ops_and_what_is_not_done_do_not_count() {
    counts_nothing(|draft| draft.registers[2..=3].iter_mut().for_each(|r| r.label = LEVEL));
    counts_nothing(|draft| draft.pair = Pair::new(240, 255));
    counts_nothing(|draft| draft.pair = Pair::new(255, 255));
    counts_nothing(|draft| draft.words[0].value = encode_registers(op::DIVIDE, 1, 2, 3, 0));
    counts_nothing(|draft| draft.words[0].value = encode_registers(op::ADD, 1, 2, 3, 0));
    counts_nothing(|draft| draft.words[0].label = Label(255));
    counts_nothing(|draft| draft.limit = 9);
}

#[test]
fn what_ends_at_the_bound_does_not_count() {
    let [one, other] = [15, 16].map(|right| trace(&image(5, right)));
    assert_eq!(met(LEVEL, &one, &other, 10).len(), 0);
    assert_eq!(met(LEVEL, &one, &other, 11).len(), 1);
}
