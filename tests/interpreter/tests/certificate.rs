//! What breaks a certificate, at which tick and place, and what doesn't.

mod common;

use common::{plain, Loaded};
use interpreter::certificate::cause;
use interpreter::draft::Draft;
use interpreter::instruction::{encode, encode_registers, op};
use interpreter::{Certificate, Label, Pair};

/// The level of all these: what is labelled 240 is within, 255 is outside.
const LEVEL: Label = Label(240);

const HALT: u32 = 22 << 24;

/// Register 5 relabelled to what register 3 holds.
const RELABEL: u32 = (16 << 24) + (5 << 20) + (3 << 16);

/// This code, then a halt. Registers 2, 3 and 4 hold 255, 240 and 256 under the
/// lowest label; register 5 is hidden under a sound label.
fn image(code: &[u32]) -> Draft {
    let mut draft = plain(&[code, &[HALT]].concat());
    draft.register(2, 240, 255);
    draft.register(3, 240, 240);
    draft.register(4, 240, 256);
    draft.register(5, 255, 7);
    draft
}

/// The certificate of an image.
fn certify(draft: &Draft) -> Certificate {
    let mut loaded = Loaded::of(draft);
    let certificate = loaded.machine.certify(LEVEL, &mut loaded.words, &loaded.labels).unwrap();
    let mut run = Loaded::of(draft);
    run.run();
    assert_eq!(loaded, run);
    certificate
}

fn broken(cause: u64, tick: u64, place: u32) -> Certificate {
    Certificate { cause, tick, place }
}

#[test]
fn a_run_that_breaks_nothing_is_whole() {
    assert_eq!(certify(&image(&[])), Certificate::WHOLE);
}

#[test]
fn a_release_counts_at_the_clock_that_it_leaves_and_the_place_of_its_op() {
    let draft = image(&[encode(op::SET, 1, 0, 9), RELABEL]);
    assert_eq!(certify(&draft), broken(cause::RELEASE, 3, 1));
}

#[test]
fn an_attempt_counts_where_the_hidden_label_does_not_allow_it() {
    let mut draft = image(&[RELABEL]);
    draft.register(5, 15, 7); // not sound
    let mut loaded = Loaded::of(&draft);
    loaded.run();
    assert_eq!(loaded.machine.registers[5].label, Label(15));
    assert_eq!(certify(&draft), broken(cause::RELEASE, 2, 0));
}

#[test]
fn a_word_that_the_run_itself_wrote_is_looked_at() {
    let mut draft = image(&[encode(op::STORE, 6, 1, 0)]);
    draft.register(1, 240, 1);
    draft.register(6, 240, RELABEL);
    assert_eq!(certify(&draft), broken(cause::RELEASE, 5, 1));
}

#[test]
fn what_is_no_attempt() {
    let mut within = image(&[RELABEL]);
    within.register(5, 240, 7);
    let mut argument = image(&[RELABEL]);
    argument.register(3, 15, 240);
    let mut limit = image(&[RELABEL]);
    limit.limit = 1;
    let outside = image(&[encode(op::RELABEL, 5, 2, 0)]);
    let no_label = image(&[encode(op::RELABEL, 5, 4, 0)]);
    let raise = image(&[encode(op::RAISE, 5, 3, 0)]);
    for draft in [within, argument, limit, outside, no_label, raise] {
        assert_eq!(certify(&draft), Certificate::WHOLE, "{:?}", draft.lines());
    }
}

#[test]
fn an_op_that_is_not_fetched_is_no_attempt() {
    let mut draft = image(&[RELABEL]);
    draft.word(0, 255, RELABEL);
    assert_eq!(certify(&draft), Certificate::WHOLE);
}

#[test]
fn an_op_that_the_end_tick_bars_is_no_attempt() {
    // An upcall of one tick that stays within; then a relabelling of two.
    let open = encode_registers(op::UPCALL, 6, 3, 3, 7);
    for (time, certificate) in [(1, Certificate::WHOLE), (2, broken(cause::RELEASE, 4, 1))] {
        let mut draft = image(&[open, RELABEL]);
        draft.register(6, 240, time);
        draft.register(7, 240, 2);
        assert_eq!(certify(&draft), certificate);
    }
}

#[test]
fn a_relabelling_of_register_0_is_no_attempt_at_any_level() {
    for number in [op::RAISE, op::RELABEL] {
        for to in [2, 3] {
            let draft = image(&[encode(number, 0, to, 0)]);
            let loaded = Loaded::of(&draft);
            for level in (0..=255).map(Label) {
                let Loaded { mut machine, mut words, labels } = loaded.clone();
                let certificate = machine.certify(level, &mut words, &labels).unwrap();
                assert_eq!(certificate, Certificate::WHOLE);
                assert_eq!(machine.clock, 3);
            }
        }
    }
}

/// The certificate at this level of a relabelling under this pair, from one label
/// to another.
fn relabelled(level: u8, pair: Pair, from: u8, to: u32) -> Certificate {
    let mut draft = image(&[RELABEL]);
    draft.pair = pair;
    draft.register(3, 240, to);
    draft.register(5, from, 7);
    let mut loaded = Loaded::of(&draft);
    loaded.machine.certify(Label(level), &mut loaded.words, &loaded.labels).unwrap()
}

#[test]
fn the_part_of_the_rule_that_can_be_seen_bounds_an_attempt() {
    // 0 is its own reflection, and flows to 1, which doesn't flow to it.
    assert_eq!(relabelled(1, Pair::new(0, 0), 2, 0), broken(cause::RELEASE, 2, 0));
    assert_eq!(relabelled(1, Pair::new(0, 0), 2, 1), Certificate::WHOLE);
    // So is 255, which doesn't flow to 240.
    assert_eq!(relabelled(255, Pair::new(255, 255), 15, 255), broken(cause::RELEASE, 2, 0));
    assert_eq!(relabelled(255, Pair::new(255, 255), 15, 240), Certificate::WHOLE);
}

#[test]
fn a_state_at_large_breaks_from_the_loaded_one_on_and_shows_no_place() {
    let mut draft = image(&[]);
    draft.pair = Pair::new(255, 255);
    assert_eq!(certify(&draft), Certificate::WHOLE);
    draft.gate(0, 255, 255);
    assert_eq!(certify(&draft), Certificate::WHOLE);
    draft.gate(0, 240, 255);
    draft.pc = 1;
    assert_eq!(certify(&draft), broken(cause::AT_LARGE, 0, 0));
}

#[test]
fn a_state_outside_in_an_upcall_is_not_at_large_and_one_by_op_17_is() {
    let open = encode_registers(op::UPCALL, 1, 2, 2, 3);
    let leave = encode_registers(op::SET_PAIR, 0, 2, 2, 0);
    for (word, certificate) in [(open, Certificate::WHOLE), (leave, broken(cause::AT_LARGE, 2, 0))]
    {
        let mut draft = image(&[word]);
        draft.register(3, 240, 1);
        draft.gate(0, 240, 240);
        assert_eq!(certify(&draft), certificate);
    }
}

#[test]
fn a_state_timed_from_outside_breaks_at_its_clock_and_place() {
    let mut draft = image(&[]);
    draft.pair = Pair::new(240, 255);
    draft.pc = 3;
    assert_eq!(certify(&draft), broken(cause::TIMED_FROM_OUTSIDE, 0, 3));
    let draft = image(&[encode_registers(op::SET_PAIR, 0, 3, 2, 0)]);
    assert_eq!(certify(&draft), broken(cause::TIMED_FROM_OUTSIDE, 2, 1));
}

#[test]
fn the_first_break_counts() {
    let draft = image(&[RELABEL, encode_registers(op::SET_PAIR, 0, 3, 2, 0)]);
    assert_eq!(certify(&draft), broken(cause::RELEASE, 2, 0));
    let draft = image(&[encode_registers(op::SET_PAIR, 0, 3, 2, 0), RELABEL]);
    assert_eq!(certify(&draft), broken(cause::TIMED_FROM_OUTSIDE, 2, 1));
}
