//! The ops: their effects, their checks, and when operands are read.

mod common;

use common::{in_gate, in_upcall, plain, Loaded};
use interpreter::instruction::{encode, encode_registers, op};
use interpreter::{Call, Label, Pair, Return};

const HALT: u32 = 22 << 24;

#[test]
fn arithmetic_drops_the_carry() {
    let cases = [
        (op::ADD, 4_294_967_295, 2, 1),
        (op::SUBTRACT, 1, 2, u32::MAX),
        (op::AND, 12, 10, 8),
        (op::OR, 12, 10, 14),
        (op::XOR, 12, 10, 6),
        (op::LESS, 1, u32::MAX, 1),
        (op::LESS, u32::MAX, 1, 0),
        (op::LESS, 5, 5, 0),
        (op::MULTIPLY, 65_536, 65_537, 65_536),
    ];
    for (number, left, right, result) in cases {
        let mut draft = plain(&[encode_registers(number, 1, 2, 3, 0)]);
        draft.register(2, 240, left);
        draft.register(3, 240, right);
        let mut loaded = Loaded::of(&draft);
        loaded.steps(1);
        assert_eq!((number, loaded.value(1)), (number, result));
    }
}

#[test]
fn loads_and_stores_check_the_words_label() {
    for (label, passes) in [(240, true), (255, false)] {
        let mut draft = plain(&[encode(op::LOAD, 1, 2, 0)]);
        draft.register(2, 240, 20);
        draft.word(20, label, 77);
        let mut loaded = Loaded::of(&draft);
        loaded.steps(1);
        assert_eq!(loaded.value(1) == 77, passes);
    }
    for (label, passes) in [(255, true), (240, false)] {
        let mut draft = plain(&[encode(op::STORE, 1, 2, 0)]);
        draft.register(1, 255, 5);
        draft.register(2, 240, 20);
        draft.word(20, label, 77);
        let mut loaded = Loaded::of(&draft);
        loaded.steps(1);
        assert_eq!(loaded.words[20] == 5, passes);
        assert_eq!(loaded.labels[20], label);
    }
}

#[test]
fn op_14_reads_the_clock_before_the_step_under_p_and_t() {
    let mut draft = plain(&[encode(op::SET, 0, 0, 1), encode(op::READ_CLOCK, 1, 0, 0)]);
    draft.word(2, 240, encode(op::READ_CLOCK, 2, 0, 0));
    draft.pair = Pair::new(240, 255);
    draft.register(1, 255, 9);
    draft.register(2, 240, 9);
    let mut loaded = Loaded::of(&draft);
    loaded.steps(3);
    assert_eq!((loaded.value(1), loaded.value(2)), (1, 9));
}

/// What op 17 makes of the pair, from the given one to the given values.
fn op_17(from: (u8, u8), to: (u32, u32), labels: (u8, u8)) -> Pair {
    let mut draft = plain(&[encode_registers(op::SET_PAIR, 0, 1, 2, 0)]);
    draft.pair = Pair::new(from.0, from.1);
    draft.register(1, labels.0, to.0);
    draft.register(2, labels.1, to.1);
    let mut loaded = Loaded::of(&draft);
    loaded.steps(1);
    assert_eq!((loaded.machine.pc, loaded.machine.clock), (1, 2));
    loaded.machine.pair
}

#[test]
fn op_17_asks_p_to_flow_to_the_new_p_and_t_to_the_new_t() {
    assert_eq!(op_17((240, 240), (255, 255), (240, 240)), Pair::new(255, 255));
    // The old t does not flow to the new p, and need not.
    assert_eq!(op_17((240, 255), (240, 255), (240, 240)), Pair::new(240, 255));
    assert_eq!(op_17((240, 255), (240, 240), (240, 240)), Pair::new(240, 255));
    assert_eq!(op_17((255, 255), (240, 255), (240, 240)), Pair::new(255, 255));
    // Not valid: t is not sound, p does not flow to t.
    assert_eq!(op_17((240, 240), (240, 15), (240, 240)), Pair::new(240, 240));
    assert_eq!(op_17((240, 240), (255, 240), (240, 240)), Pair::new(240, 240));
}

#[test]
fn op_17_asks_the_operands_labels_to_flow_to_the_old_p() {
    assert_eq!(op_17((240, 240), (255, 255), (255, 240)), Pair::new(240, 240));
    assert_eq!(op_17((240, 240), (255, 255), (240, 255)), Pair::new(240, 240));
}

#[test]
fn op_17_works_in_an_upcall() {
    let mut draft = in_upcall(20, &[encode_registers(op::SET_PAIR, 0, 5, 6, 0)]);
    draft.register(2, 240, 240);
    draft.register(3, 240, 240);
    draft.register(5, 240, 255);
    draft.register(6, 240, 255);
    let mut loaded = Loaded::of(&draft);
    loaded.steps(2);
    assert_eq!(loaded.machine.pair, Pair::new(255, 255));
}

#[test]
fn op_18_goes_on_at_the_next_word_under_the_new_pair_and_keeps_rd() {
    let mut loaded = Loaded::of(&in_upcall(20, &[]));
    loaded.steps(1);
    assert_eq!((loaded.machine.pc, loaded.machine.clock), (1, 2));
    assert_eq!(loaded.machine.pair, Pair::new(255, 255));
    let back = Return { pc: 30, pair: Pair::new(240, 240) };
    assert_eq!(loaded.machine.first, Call::Upcall(back, 22));
    assert_eq!(loaded.machine.second, Call::Empty);
}

#[test]
fn op_18_asks_all_four_operands_labels_to_flow_to_the_old_p() {
    for register in 1..=4 {
        let mut draft = in_upcall(20, &[]);
        draft.registers[register].label = Label(255);
        let mut loaded = Loaded::of(&draft);
        loaded.steps(1);
        assert_eq!(loaded.machine.first, Call::Empty);
        assert_eq!((loaded.machine.pc, loaded.machine.clock), (1, 2));
    }
}

#[test]
fn op_18_asks_the_old_t_to_flow_to_the_new_p() {
    for (pc, opens) in [(240, false), (255, true)] {
        let mut draft = in_upcall(20, &[]);
        draft.pair = Pair::new(240, 255);
        draft.register(2, 240, pc);
        let mut loaded = Loaded::of(&draft);
        loaded.steps(1);
        assert_eq!(loaded.machine.first != Call::Empty, opens);
    }
}

#[test]
fn a_label_above_255_fails_ops_15_to_18_and_is_never_cut() {
    for (number, register) in [(15, 2), (16, 2), (17, 2), (17, 3), (18, 2), (18, 3)] {
        let mut draft = in_upcall(20, &[]);
        draft.word(0, 240, encode_registers(number, 1, 2, 3, 4));
        let mut loaded = Loaded::of(&draft);
        loaded.steps(1);
        let before = Loaded::of(&draft);
        let changed = |s: &Loaded| (s.machine.registers, s.machine.pair, s.machine.first);
        assert_ne!(changed(&loaded), changed(&before), "op {number} passes with 255");
        draft.registers[register].value += 256;
        let before = Loaded::of(&draft);
        loaded = before.clone();
        loaded.steps(1);
        assert_eq!(changed(&loaded), changed(&before), "op {number} fails with 511");
        assert_eq!((loaded.machine.pc, loaded.machine.clock), (1, 2));
    }
}

#[test]
fn a_gate_number_is_the_whole_value() {
    for (number, calls) in [(0, true), (1, false), (256, false), (1 << 16, false), (1 << 31, false)]
    {
        let mut draft = in_gate(Pair::new(240, 240), &[]);
        draft.register(1, 240, number);
        let mut loaded = Loaded::of(&draft);
        loaded.steps(1);
        assert_eq!(loaded.machine.first != Call::Empty, calls);
        assert_eq!(loaded.machine.clock, 4);
    }
}

#[test]
fn a_gate_call_takes_the_gates_place_and_pair_and_keeps_the_next_place() {
    let mut loaded = Loaded::of(&in_gate(Pair::new(240, 255), &[encode(op::GATE_RETURN, 0, 0, 0)]));
    loaded.steps(1);
    assert_eq!((loaded.machine.pc, loaded.machine.pair), (8, Pair::new(240, 255)));
    let back = Return { pc: 1, pair: Pair::new(255, 255) };
    assert_eq!(loaded.machine.first, Call::Gate(back));
    loaded.steps(1);
    assert_eq!((loaded.machine.pc, loaded.machine.pair), (1, Pair::new(255, 255)));
    assert_eq!((loaded.machine.first, loaded.machine.clock), (Call::Empty, 8));
}

#[test]
fn a_gate_call_asks_both_its_labels_to_flow_to_p() {
    for (pc, timing) in [(255, 255), (240, 255)] {
        let mut draft = in_gate(Pair::new(pc, timing), &[]);
        draft.pair = Pair::new(240, 240);
        let mut loaded = Loaded::of(&draft);
        loaded.steps(1);
        assert_eq!((loaded.machine.first, loaded.machine.pc), (Call::Empty, 1));
    }
}

#[test]
fn a_gate_call_asks_lb_to_flow_to_p() {
    for (label, calls) in [(240, true), (255, false), (0, false)] {
        let mut draft = in_gate(Pair::new(240, 240), &[]);
        draft.pair = Pair::new(240, 240);
        draft.register(1, label, 0);
        let mut loaded = Loaded::of(&draft);
        loaded.steps(1);
        assert_eq!((loaded.machine.first != Call::Empty, loaded.machine.clock), (calls, 4));
    }
}

#[test]
fn a_gate_return_fails_when_the_labels_have_risen_above_the_kept_ones() {
    let code = [encode_registers(op::SET_PAIR, 0, 2, 2, 0), encode(op::GATE_RETURN, 0, 0, 0)];
    let mut draft = in_gate(Pair::new(240, 240), &code);
    draft.pair = Pair::new(240, 255);
    draft.register(2, 240, 255);
    let mut loaded = Loaded::of(&draft);
    loaded.steps(3);
    assert_eq!((loaded.machine.pc, loaded.machine.clock), (10, 10));
    assert!(matches!(loaded.machine.first, Call::Gate(_)));
}

#[test]
fn op_19_outside_an_upcall_passes_by() {
    let mut loaded = Loaded::of(&plain(&[encode(op::END_UPCALL, 0, 0, 0)]));
    loaded.steps(1);
    assert_eq!((loaded.machine.pc, loaded.machine.clock, loaded.machine.end), (1, 1, 0));
}

#[test]
fn op_18_in_an_upcall_passes_by() {
    let draft = in_upcall(20, &[encode_registers(op::UPCALL, 1, 2, 3, 4)]);
    let mut loaded = Loaded::of(&draft);
    loaded.steps(2);
    assert_eq!((loaded.machine.pc, loaded.machine.clock), (2, 4));
    assert_eq!(loaded.machine.second, Call::Empty);
}

#[test]
fn op_20_with_an_open_call_passes_by() {
    let mut upcall = in_upcall(20, &[encode(op::GATE_CALL, 0, 9, 0)]);
    upcall.gate(20, 240, 240);
    let mut loaded = Loaded::of(&upcall);
    loaded.steps(2);
    assert_eq!((loaded.machine.pc, loaded.machine.clock), (2, 6));

    let gate = in_gate(Pair::new(240, 240), &[encode(op::GATE_CALL, 0, 1, 0)]);
    let mut loaded = Loaded::of(&gate);
    loaded.steps(2);
    assert_eq!((loaded.machine.pc, loaded.machine.clock), (9, 8));
}

#[test]
fn op_21_without_a_gate_call_on_top_passes_by() {
    let mut loaded = Loaded::of(&plain(&[encode(op::GATE_RETURN, 0, 0, 0)]));
    loaded.steps(1);
    assert_eq!((loaded.machine.pc, loaded.machine.clock), (1, 4));
    let mut loaded = Loaded::of(&in_upcall(20, &[encode(op::GATE_RETURN, 0, 0, 0)]));
    loaded.steps(2);
    assert_eq!((loaded.machine.pc, loaded.machine.clock), (2, 6));
}

#[test]
fn op_22_with_a_gate_call_open_halts() {
    let mut loaded = Loaded::of(&in_gate(Pair::new(240, 240), &[HALT]));
    loaded.run();
    assert_eq!((loaded.machine.end, loaded.machine.pc, loaded.machine.clock), (1, 8, 5));
    assert!(matches!(loaded.machine.first, Call::Gate(_)));
}

#[test]
fn an_upcall_over_a_gate_call_returns_into_the_gate_call() {
    let code = [encode_registers(op::UPCALL, 1, 2, 2, 3), encode(op::END_UPCALL, 0, 0, 0)];
    let mut draft = in_gate(Pair::new(240, 240), &code);
    draft.word(20, 240, encode(op::GATE_RETURN, 0, 0, 0));
    draft.register(2, 240, 255);
    draft.register(3, 240, 20);
    let mut loaded = Loaded::of(&draft);
    loaded.steps(2);
    assert!(matches!(loaded.machine.second, Call::Upcall(_, 6)));
    loaded.steps(1);
    assert_eq!((loaded.machine.pc, loaded.machine.clock), (20, 7));
    assert!(matches!(loaded.machine.first, Call::Gate(_)));
    loaded.steps(1);
    assert_eq!((loaded.machine.pc, loaded.machine.clock), (1, 11));
}

#[test]
fn word_rb_outside_memory_is_told_by_the_size_and_not_by_what_is_lent() {
    for number in [op::LOAD, op::STORE] {
        let mut draft = plain(&[encode(number, 1, 2, 0)]);
        draft.register(1, 240, 5);
        draft.register(2, 240, 32);
        let mut loaded = Loaded::of(&draft);
        loaded.words[32] = 99;
        loaded.labels[32] = 240;
        loaded.steps(1);
        assert_eq!((loaded.value(1), loaded.words[32]), (5, 99));
        assert_eq!((loaded.machine.pc, loaded.machine.clock), (1, 3));
    }
}

#[test]
fn a_place_outside_the_size_is_not_fetched_from_longer_memory() {
    let mut draft = plain(&[]);
    draft.pc = 32;
    let mut loaded = Loaded::of(&draft);
    loaded.words[32] = HALT;
    loaded.labels[32] = 240;
    loaded.steps(1);
    assert_eq!((loaded.machine.pc, loaded.machine.clock, loaded.machine.end), (31, 1, 0));
}

#[test]
fn register_15_gets_the_cause_by_the_t_of_the_closing_moment() {
    // Opened under (240, 240), raised to (255, 255) by op 17 in the upcall.
    for (label, raise, cause) in [(240, false, 1), (240, true, 0), (255, true, 1), (15, true, 1)] {
        let raise = encode_registers(if raise { op::SET_PAIR } else { op::ADD }, 9, 5, 5, 0);
        let mut draft = in_upcall(20, &[raise, encode(op::END_UPCALL, 0, 0, 0)]);
        draft.register(2, 240, 240);
        draft.register(3, 240, 240);
        draft.register(5, 240, 255);
        draft.register(15, label, 0);
        let mut loaded = Loaded::of(&draft);
        loaded.steps(3);
        assert_eq!(loaded.machine.pc, 30);
        assert_eq!(loaded.value(15), cause);
        assert_eq!(loaded.machine.registers[15].label, Label(label));
    }
}

#[test]
fn ops_15_and_16_read_all_operands_before_they_write() {
    for number in [op::RAISE, op::RELABEL] {
        let mut draft = plain(&[encode(number, 1, 1, 0)]);
        draft.register(1, 240, 15);
        let mut loaded = Loaded::of(&draft);
        loaded.steps(1);
        let register = loaded.machine.registers[1];
        assert_eq!((register.value, register.label), (15, Label(15)));
    }
}

#[test]
fn ops_17_18_and_20_may_name_one_register_twice() {
    assert_eq!(op_17((240, 240), (255, 255), (240, 240)), Pair::new(255, 255));
    let mut draft = plain(&[encode_registers(op::UPCALL, 1, 1, 1, 1)]);
    draft.register(1, 240, 255);
    let mut loaded = Loaded::of(&draft);
    loaded.steps(1);
    let back = Return { pc: 255, pair: Pair::new(240, 240) };
    assert_eq!(loaded.machine.first, Call::Upcall(back, 257));
    assert_eq!(loaded.machine.pair, Pair::new(255, 255));
}

#[test]
fn unused_bits_are_ignored() {
    let mut draft = plain(&[op_word_with_unused_bits(op::ADD, 1, 2, 3)]);
    draft.register(2, 240, 4);
    draft.register(3, 240, 5);
    draft.word(1, 240, HALT | 0x00ff_ffff);
    let mut loaded = Loaded::of(&draft);
    loaded.run();
    assert_eq!((loaded.value(1), loaded.machine.end, loaded.machine.clock), (9, 1, 2));
}

fn op_word_with_unused_bits(number: u8, a: u32, b: u32, c: u32) -> u32 {
    encode_registers(number, a, b, c, 0) | 0xfff
}

#[test]
fn a_failed_fetch_outside_an_upcall_goes_to_the_error_pc_in_1_tick() {
    let mut draft = plain(&[]);
    draft.word(0, 255, HALT);
    let mut loaded = Loaded::of(&draft);
    loaded.steps(1);
    assert_eq!((loaded.machine.pc, loaded.machine.clock, loaded.machine.end), (31, 1, 0));
    loaded.steps(1);
    assert_eq!((loaded.machine.pc, loaded.machine.clock), (31, 1));
    assert_eq!((loaded.machine.end, loaded.machine.why), (3, 3));
}

#[test]
fn fetch_is_tried_for_1_then_2_then_3() {
    for (pc, label, why) in [(32, 255, 1), (31, 255, 2), (31, 240, 3)] {
        let mut draft = plain(&[]);
        (draft.pc, draft.error_pc) = (pc, pc);
        draft.word(31, label, 0);
        let mut loaded = Loaded::of(&draft);
        loaded.run();
        assert_eq!((loaded.machine.end, loaded.machine.why, loaded.machine.clock), (3, why, 0));
    }
}
