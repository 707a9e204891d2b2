//! The limit, the end tick, and which of them decides.

mod common;

use common::{in_upcall, plain, Loaded};
use interpreter::draft::Draft;
use interpreter::instruction::{encode, encode_registers, op};
use interpreter::{Call, Pair};

const END_UPCALL: u32 = 19 << 24;
const HALT: u32 = 22 << 24;
const UNKNOWN: u32 = 0;

/// The upcall image, its return place telling that it came back.
fn run(draft: &Draft) -> Loaded {
    let mut loaded = Loaded::of(draft);
    loaded.run();
    loaded
}

/// The cause and the clock at which the upcall was closed.
fn close_of(draft: &Draft) -> (u32, u64) {
    let mut loaded = Loaded::of(draft);
    loaded.steps(1);
    assert!(loaded.machine.open_upcall().is_some());
    while loaded.machine.open_upcall().is_some() && loaded.machine.end == 0 {
        loaded.steps(1);
    }
    assert_eq!(loaded.machine.first, Call::Empty);
    assert_eq!((loaded.machine.pc, loaded.machine.pair), (30, Pair::new(240, 240)));
    (loaded.value(15), loaded.machine.clock)
}

/// Two ops of one tick, and then this one, in an upcall of so many ticks.
fn after_two_ticks(time: u32, word: u32) -> Draft {
    let set = encode(op::SET, 9, 0, 0);
    in_upcall(time, &[set, set, word])
}

#[test]
fn a_failed_fetch_at_the_error_pc_stalls_below_the_limit_and_is_spent_at_it() {
    let mut loaded = Loaded::of(&Draft::new(1, 0, 0, Pair::new(240, 240), 5));
    loaded.machine.clock = 4;
    loaded.steps(1);
    assert_eq!((loaded.machine.end, loaded.machine.why, loaded.machine.clock), (3, 3, 4));

    let mut loaded = Loaded::of(&Draft::new(1, 0, 0, Pair::new(240, 240), 5));
    loaded.machine.clock = 5;
    loaded.steps(1);
    assert_eq!((loaded.machine.end, loaded.machine.why, loaded.machine.clock), (2, 0, 5));
}

#[test]
fn an_ended_record_at_the_limit_keeps_its_end() {
    let mut draft = plain(&[HALT]);
    draft.limit = 1;
    let mut loaded = run(&draft);
    assert_eq!((loaded.machine.end, loaded.machine.clock), (1, 1));
    loaded.steps(1);
    assert_eq!((loaded.machine.end, loaded.machine.clock), (1, 1));
}

#[test]
fn a_step_that_would_finish_beyond_the_limit_only_sets_clock_and_end() {
    let mut draft = plain(&[encode(op::LOAD, 1, 0, 0)]);
    draft.limit = 2;
    let before = Loaded::of(&draft);
    let mut after = before.clone();
    after.run();
    let mut expected = before;
    expected.machine.clock = 2;
    expected.machine.end = 2;
    assert_eq!(after, expected);
}

#[test]
fn a_close_beyond_the_limit_leaves_the_call_open_even_for_op_19() {
    for word in [END_UPCALL, HALT, UNKNOWN, encode(op::GATE_RETURN, 0, 0, 0)] {
        let mut draft = in_upcall(3, &[word]);
        // The end tick is 5, the close would finish at 6.
        draft.limit = 5;
        let mut loaded = run(&draft);
        assert_eq!((loaded.machine.end, loaded.machine.clock, loaded.machine.pc), (2, 5, 1));
        assert_eq!(loaded.value(15), 0);
        assert!(loaded.listing().contains("\nF,2,30,240,240,5\n"));
        draft.limit = 6;
        loaded = Loaded::of(&draft);
        loaded.steps(2);
        assert_eq!((loaded.machine.end, loaded.machine.clock, loaded.machine.pc), (0, 6, 30));
    }
}

#[test]
fn a_close_is_tried_against_the_limit_by_the_end_tick_and_not_by_the_ops_ticks() {
    // Op 21 takes 4 ticks from clock 2: past the end tick 3 and the limit 4.
    let mut draft = in_upcall(1, &[encode(op::GATE_RETURN, 0, 0, 0)]);
    draft.limit = 4;
    assert_eq!(close_of(&draft), (2, 4));
}

#[test]
fn an_op_beyond_the_limit_but_not_past_the_end_tick_is_spent() {
    let mut draft = in_upcall(20, &[encode(op::LOAD, 9, 0, 0)]);
    draft.limit = 4;
    let loaded = run(&draft);
    assert_eq!((loaded.machine.end, loaded.machine.clock, loaded.machine.pc), (2, 4, 1));
    assert!(loaded.machine.open_upcall().is_some());
}

#[test]
fn op_19_is_cause_1_and_does_not_come_back_early() {
    assert_eq!(close_of(&after_two_ticks(20, END_UPCALL)), (1, 23));
}

#[test]
fn op_19_at_clock_equal_to_the_end_tick_is_cause_1() {
    assert_eq!(close_of(&after_two_ticks(2, END_UPCALL)), (1, 5));
}

#[test]
fn a_failed_fetch_in_an_upcall_is_cause_3_for_each_why() {
    assert_eq!(close_of(&after_two_ticks(20, UNKNOWN)), (3, 23));
    assert_eq!(close_of(&after_two_ticks(20, encode(op::BRANCH_EQUAL, 0, 0, 32))), (3, 23));
    let mut draft = after_two_ticks(20, END_UPCALL);
    draft.word(3, 15, END_UPCALL);
    assert_eq!(close_of(&draft), (3, 23));
}

#[test]
fn a_failed_fetch_in_an_upcall_at_the_error_pc_closes_it_and_does_not_stall() {
    let mut draft = after_two_ticks(20, UNKNOWN);
    draft.error_pc = 3;
    assert_eq!(close_of(&draft), (3, 23));
}

#[test]
fn a_failed_branch_or_jump_in_an_upcall_is_cause_3() {
    let words = [
        encode(op::BRANCH_EQUAL, 8, 0, 0),
        encode(op::BRANCH_LESS, 0, 8, 0),
        encode(op::JUMP, 0, 8, 0),
    ];
    for word in words {
        let mut draft = after_two_ticks(20, word);
        draft.register(8, 15, 0);
        assert_eq!(close_of(&draft), (3, 23));
    }
}

#[test]
fn a_halt_in_an_upcall_is_cause_3() {
    assert_eq!(close_of(&after_two_ticks(20, HALT)), (3, 23));
}

#[test]
fn causes_1_and_3_come_before_cause_2() {
    assert_eq!(close_of(&after_two_ticks(2, HALT)), (3, 5));
    assert_eq!(close_of(&after_two_ticks(2, UNKNOWN)), (3, 5));
    let mut draft = after_two_ticks(2, encode(op::JUMP, 0, 8, 0));
    draft.register(8, 15, 0);
    assert_eq!(close_of(&draft), (3, 5));
}

#[test]
fn an_op_that_would_finish_past_the_end_tick_is_cause_2_and_not_carried_out() {
    let mut draft = after_two_ticks(2, encode(op::SET, 8, 0, 7));
    draft.register(8, 255, 1);
    assert_eq!(close_of(&draft), (2, 5));
    assert_eq!(run(&draft).value(8), 1);
}

#[test]
fn an_op_that_finishes_at_the_end_tick_is_carried_out() {
    let mut draft = after_two_ticks(3, encode(op::SET, 8, 0, 7));
    draft.register(8, 255, 1);
    draft.word(4, 240, encode(op::SET, 8, 0, 9));
    assert_eq!(close_of(&draft), (2, 6));
    assert_eq!(run(&draft).value(8), 7);
}

#[test]
fn a_late_op_whose_check_fails_is_cause_2_too() {
    let load = encode(op::LOAD, 9, 8, 0);
    assert_eq!(close_of(&after_two_ticks(4, load)), (2, 7));
    assert_eq!(close_of(&after_two_ticks(5, load)), (3, 8));
}

#[test]
fn a_branch_that_is_not_taken_has_not_failed() {
    let mut draft = after_two_ticks(20, encode(op::BRANCH_LESS, 0, 0, 0));
    draft.word(4, 240, END_UPCALL);
    assert_eq!(close_of(&draft), (1, 23));
    // Past the end tick it is late like any op.
    assert_eq!(close_of(&after_two_ticks(2, encode(op::BRANCH_LESS, 0, 0, 0))), (2, 5));
}

#[test]
fn op_8_takes_the_same_ticks_when_its_check_fails() {
    for (factor, ticks) in [(0, 2), (1, 3), (16, 4), (u32::MAX, 10)] {
        let mut draft = plain(&[encode_registers(op::MULTIPLY, 1, 2, 3, 0)]);
        draft.pair = Pair::new(255, 255);
        draft.register(2, 240, 7);
        draft.register(3, 240, factor);
        let mut loaded = Loaded::of(&draft);
        loaded.steps(1);
        assert_eq!((loaded.machine.clock, loaded.machine.pc, loaded.value(1)), (ticks, 1, 0));
    }
}

#[test]
fn a_failed_check_takes_the_same_ticks() {
    let ticks = [(1, 1), (2, 1), (7, 1), (9, 3), (10, 3), (11, 1), (12, 1), (13, 1), (14, 1)];
    let more = [(15, 2), (16, 2), (17, 2), (18, 2), (19, 1), (20, 4), (21, 4), (23, 34), (24, 34)];
    for (number, ticks) in ticks.into_iter().chain(more) {
        let mut draft = plain(&[encode_registers(number, 2, 1, 1, 1)]);
        draft.pair = Pair::new(255, 255);
        draft.register(1, 15, 1_000);
        let mut loaded = Loaded::of(&draft);
        loaded.steps(1);
        assert_eq!((number, loaded.machine.clock, loaded.machine.pc), (number, ticks, 1));
        assert_eq!(loaded.machine.registers, Loaded::of(&draft).machine.registers);
    }
}
