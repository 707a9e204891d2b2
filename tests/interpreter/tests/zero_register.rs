//! Register 0 "always reads 0 with the lowest label": fitness, the ops that would
//! write or relabel it, and the ops that read it.

mod common;

use common::{in_upcall, plain, Loaded};
use interpreter::draft::Draft;
use interpreter::instruction::{encode, encode_registers, op, Instruction};
use interpreter::machine::ZERO_REGISTER;
use interpreter::{is_fit, print, Call, Gate, Label, Machine, Pair, Register, Return};

const END_UPCALL: u32 = 19 << 24;
const HALT: u32 = 22 << 24;

/// What every write would change, were it another register: a low label, and
/// nothing in it.
const UNSET: usize = 5;

/// Every op that writes or relabels register a, its other registers as `ready`
/// has them, and its ticks.
fn writes(a: usize) -> [(u32, u64); 14] {
    let a = a as u32;
    [
        (encode(op::SET, a, 0, 5), 1),
        (encode_registers(op::ADD, a, 1, 2, 0), 1),
        (encode_registers(op::SUBTRACT, a, 1, 2, 0), 1),
        (encode_registers(op::AND, a, 1, 2, 0), 1),
        (encode_registers(op::OR, a, 1, 2, 0), 1),
        (encode_registers(op::XOR, a, 1, 2, 0), 1),
        (encode_registers(op::LESS, a, 1, 2, 0), 1),
        (encode_registers(op::MULTIPLY, a, 1, 2, 0), 3),
        (encode(op::LOAD, a, 3, 0), 3),
        (encode(op::READ_CLOCK, a, 0, 0), 1),
        (encode(op::RAISE, a, 4, 0), 2),
        (encode(op::RELABEL, a, 4, 0), 2),
        (encode_registers(op::DIVIDE, a, 2, 1, 0), 34),
        (encode_registers(op::REMAINDER, a, 2, 1, 0), 34),
    ]
}

/// Gives the ops that write what they need for a result that isn't 0 and a label
/// that isn't the lowest.
fn ready(draft: &mut Draft) {
    draft.register(1, 240, 7);
    draft.register(2, 240, 9);
    draft.register(3, 240, 20);
    draft.register(4, 240, 255);
    draft.word(20, 240, 77);
}

/// A machine at clock 6 that stands before this word.
fn before(word: u32) -> Loaded {
    let mut draft = plain(&[word]);
    ready(&mut draft);
    let mut loaded = Loaded::of(&draft);
    loaded.machine.clock = 6;
    loaded
}

/// What the step leaves when it "only" takes these ticks and grows the place.
fn passed_by(mut loaded: Loaded, ticks: u64) -> Loaded {
    loaded.machine.clock += ticks;
    loaded.machine.pc += 1;
    loaded
}

fn stepped(mut loaded: Loaded) -> Loaded {
    loaded.steps(1);
    loaded
}

fn fit_machine() -> Machine {
    Machine::new(8, 7, 0, Pair::new(240, 240), 100)
}

/// A fit record but for what register 0 holds.
fn holding(value: u32, label: u8) -> Machine {
    let mut machine = fit_machine();
    machine.registers[ZERO_REGISTER] = Register { value, label: Label(label) };
    machine
}

#[test]
fn a_record_is_fit_where_register_0_has_value_0_and_label_240_alone() {
    assert!(is_fit(&holding(0, 240)));
    for value in [1, 240, 1 << 16, 1 << 31, u32::MAX] {
        assert!(!is_fit(&holding(value, 240)));
    }
    for label in (0..=255).filter(|&label| label != 240) {
        assert!(!is_fit(&holding(0, label)));
    }
    assert!(!is_fit(&holding(1, 15)));
}

#[test]
fn nothing_is_asked_of_the_other_registers() {
    let mut machine = fit_machine();
    machine.registers[1..].fill(Register { value: u32::MAX, label: Label(15) });
    assert!(is_fit(&machine));
}

#[test]
fn step_run_and_print_refuse_7_before_6_and_8_and_change_nothing() {
    for machine in [holding(1, 240), holding(0, 255)] {
        for length in [7, 8] {
            let (mut words, labels) = (vec![9; length], vec![240; length]);
            let mut changed = machine.clone();
            assert_eq!(changed.step(&mut words, &labels), Err(7));
            assert_eq!(changed.run(&mut words, &labels), Err(7));
            assert_eq!(changed, machine);
            let mut output = [33; 3];
            assert_eq!(print(&machine, &words, &labels, &mut output), Err(7));
            assert_eq!((words, output), (vec![9; length], [33; 3]));
        }
    }
}

#[test]
fn an_ended_record_is_refused_too() {
    let mut machine = holding(1, 240);
    machine.end = 1;
    assert_eq!(machine.step(&mut [0; 8], &[240; 8]), Err(7));
    assert_eq!(machine.run(&mut [0; 8], &[240; 8]), Err(7));
}

#[test]
fn a_write_or_relabel_of_register_0_only_takes_its_ticks_and_grows_the_place() {
    for ((word, ticks), (other, _)) in writes(ZERO_REGISTER).into_iter().zip(writes(UNSET)) {
        let loaded = before(word);
        assert_eq!(stepped(loaded.clone()), passed_by(loaded, ticks), "{word:08x}");
        // It is register 0 that stops it: another one, held alike, is changed.
        let loaded = stepped(before(other));
        assert_ne!(loaded.machine.registers[UNSET], Register::UNSET, "{other:08x}");
    }
}

#[test]
fn it_does_the_same_where_its_check_fails() {
    for (word, ticks) in writes(ZERO_REGISTER) {
        let mut loaded = before(word);
        loaded.machine.pair = Pair::new(255, 255);
        assert_eq!(stepped(loaded.clone()), passed_by(loaded, ticks), "{word:08x}");
    }
    let above = encode(op::RAISE, 0, 1, 0);
    for word in [above, encode(op::RELABEL, 0, 1, 0), encode(op::LOAD, 0, 1, 0)] {
        let mut loaded = before(word);
        loaded.machine.registers[1].value = 1_000;
        let ticks = if word >> 24 == u32::from(op::LOAD) { 3 } else { 2 };
        assert_eq!(stepped(loaded.clone()), passed_by(loaded, ticks), "{word:08x}");
    }
}

#[test]
fn op_8_keeps_its_ticks_by_both_timings() {
    let multiply = encode_registers(op::MULTIPLY, 0, 1, 2, 0);
    for (factor, ticks) in [(0, 2), (1, 3), (16, 4), (u32::MAX, 10)] {
        let mut loaded = before(multiply);
        loaded.machine.registers[2].value = factor;
        assert_eq!(stepped(loaded.clone()), passed_by(loaded, ticks));
    }
    for hidden in [1, 2] {
        let mut loaded = before(multiply);
        loaded.machine.registers[hidden].label = Label(255);
        assert_eq!(stepped(loaded.clone()), passed_by(loaded, 10));
    }
}

/// An upcall of so many ticks with this word and then op 19 in it, under these
/// labels, stepped into. It stands at place 1 and clock 2.
fn upcall(time: u32, word: u32, label: u32) -> Loaded {
    let mut draft = in_upcall(time, &[word, END_UPCALL]);
    draft.register(2, 240, label);
    draft.register(3, 240, label);
    draft.word(20, 240, 77);
    stepped(Loaded::of(&draft))
}

#[test]
fn in_an_upcall_it_passes_by_and_the_upcall_goes_on() {
    for (word, _) in writes(ZERO_REGISTER) {
        for label in [240, 255] {
            let loaded = upcall(40, word, label);
            let ticks = loaded.machine.ticks(Instruction(word));
            let mut after = stepped(loaded.clone());
            assert_eq!(after, passed_by(loaded, ticks), "{word:08x}");
            after.steps(1);
            assert_eq!((after.machine.clock, after.machine.pc, after.value(15)), (43, 30, 1));
        }
    }
}

#[test]
fn past_the_end_tick_it_closes_the_upcall_with_cause_2_and_at_it_it_passes_by() {
    for (word, _) in writes(ZERO_REGISTER) {
        let loaded = upcall(20, word, 255);
        let ticks = loaded.machine.ticks(Instruction(word)) as u32;
        let late = stepped(upcall(ticks - 1, word, 255));
        let back = u64::from(ticks) + 2;
        assert_eq!((late.machine.clock, late.machine.pc, late.value(15)), (back, 30, 2));
        assert_eq!(late.machine.first, Call::Empty);
        let loaded = upcall(ticks, word, 255);
        assert_eq!(stepped(loaded.clone()), passed_by(loaded, ticks.into()));
    }
}

#[test]
fn the_limit_bars_it_as_it_bars_any_op() {
    for (word, ticks) in writes(ZERO_REGISTER) {
        let mut loaded = before(word);
        loaded.machine.limit = 6 + ticks;
        assert_eq!(stepped(loaded.clone()), passed_by(loaded.clone(), ticks));
        loaded.machine.limit = 5 + ticks;
        let mut spent = loaded.clone();
        (spent.machine.clock, spent.machine.end) = (5 + ticks, 2);
        assert_eq!(stepped(loaded), spent);
    }
}

#[test]
fn past_the_end_tick_and_the_limit_cause_2_counts() {
    // The end tick is 3, the limit 4; op 9 would finish at 5.
    let mut late = upcall(1, encode(op::LOAD, 0, 3, 0), 255);
    late.machine.limit = 4;
    late.steps(1);
    assert_eq!((late.machine.clock, late.machine.pc, late.value(15)), (4, 30, 2));
    // A close beyond the limit only spends the clock.
    let mut spent = upcall(1, encode(op::LOAD, 0, 3, 0), 255);
    spent.machine.limit = 3;
    spent.steps(1);
    assert_eq!((spent.machine.clock, spent.machine.end, spent.machine.pc), (3, 2, 1));
    assert!(spent.machine.open_upcall().is_some());
}

#[test]
fn it_is_a_source_of_value_0_and_the_lowest_label() {
    let cases = [
        (op::ADD, 1, 0, 7),
        (op::ADD, 0, 1, 7),
        (op::SUBTRACT, 0, 1, 7u32.wrapping_neg()),
        (op::AND, 0, 1, 0),
        (op::OR, 0, 1, 7),
        (op::XOR, 1, 0, 7),
        (op::LESS, 0, 1, 1),
        (op::LESS, 1, 0, 0),
    ];
    for (number, b, c, result) in cases {
        let loaded = stepped(before(encode_registers(number, 6, b, c, 0)));
        assert_eq!((loaded.value(6), loaded.machine.clock), (result, 7));
    }
    // As a factor it has no significant bit, and its label hides no time.
    for (b, c, ticks) in [(1, 0, 2), (0, 1, 3), (0, 0, 2)] {
        let loaded = stepped(before(encode_registers(op::MULTIPLY, 1, b, c, 0)));
        assert_eq!((loaded.value(1), loaded.machine.clock), (0, 6 + ticks));
    }
    // As an address it is word 0: the op itself.
    let load = encode(op::LOAD, 6, 0, 0);
    assert_eq!(stepped(before(load)).value(6), load);
}

#[test]
fn ops_15_and_16_read_label_0_from_it() {
    for number in [op::RAISE, op::RELABEL] {
        let loaded = stepped(before(encode(number, 6, 0, 0)));
        assert_eq!(loaded.machine.registers[6].label, Label(0));
        assert_eq!((loaded.machine.pc, loaded.machine.clock), (1, 8));
    }
}

#[test]
fn op_10_stores_0_and_takes_it_for_an_address() {
    let loaded = stepped(before(encode(op::STORE, 0, 3, 0)));
    assert_eq!((loaded.words[20], loaded.machine.clock), (0, 9));
    let loaded = stepped(before(encode(op::STORE, 1, 0, 0)));
    assert_eq!((loaded.words[0], loaded.machine.clock), (7, 9));
}

#[test]
fn branches_compare_with_it_and_a_jump_leads_to_place_0() {
    let cases = [
        (encode(op::BRANCH_EQUAL, 0, 0, 9), 9),
        (encode(op::BRANCH_EQUAL, 0, 6, 9), 9),
        (encode(op::BRANCH_EQUAL, 1, 0, 9), 1),
        (encode(op::BRANCH_LESS, 0, 1, 9), 9),
        (encode(op::BRANCH_LESS, 1, 0, 9), 1),
        (encode(op::BRANCH_LESS, 0, 0, 9), 1),
        (encode(op::JUMP, 0, 0, 0), 0),
    ];
    for (word, pc) in cases {
        let loaded = stepped(before(word));
        assert_eq!((loaded.machine.pc, loaded.machine.clock), (pc, 7), "{word:08x}");
    }
    // Its label flows to every pc label, so in an upcall none of these fails.
    for word in [encode(op::BRANCH_LESS, 0, 0, 9), encode(op::BRANCH_EQUAL, 0, 0, 2)] {
        let loaded = stepped(upcall(20, word, 255));
        assert_eq!((loaded.machine.pc, loaded.machine.clock), (2, 3));
    }
}

#[test]
fn op_17_takes_label_0_from_it() {
    for (b, c, pair) in [(0, 0, (0, 0)), (7, 0, (240, 0)), (0, 7, (240, 240))] {
        let mut loaded = before(encode_registers(op::SET_PAIR, 0, b, c, 0));
        loaded.machine.registers[7].value = 240;
        let loaded = stepped(loaded);
        assert_eq!(loaded.machine.pair, Pair::new(pair.0, pair.1));
        assert_eq!((loaded.machine.pc, loaded.machine.clock), (1, 8));
    }
}

#[test]
fn op_18_takes_it_for_its_ticks_its_labels_and_its_return_place() {
    // Registers 1, 2 and 4 hold 7, 9 and 255; none of these is what register 0 is.
    let cases = [
        ((0, 4, 4, 2), (8, 9, 255, 255)),
        ((1, 0, 0, 2), (15, 9, 0, 0)),
        ((1, 4, 4, 0), (15, 0, 255, 255)),
        ((0, 0, 0, 0), (8, 0, 0, 0)),
    ];
    for ((a, b, c, d), (end_tick, pc, new_pc, new_timing)) in cases {
        let loaded = stepped(before(encode_registers(op::UPCALL, a, b, c, d)));
        let back = Return { pc, pair: Pair::new(240, 240) };
        assert_eq!(loaded.machine.first, Call::Upcall(back, end_tick));
        assert_eq!(loaded.machine.pair, Pair::new(new_pc, new_timing));
        assert_eq!((loaded.machine.pc, loaded.machine.clock), (1, 8));
    }
}

#[test]
fn op_20_takes_it_for_gate_0() {
    let mut loaded = before(encode(op::GATE_CALL, 0, 0, 0));
    assert_eq!(stepped(loaded.clone()), passed_by(loaded.clone(), 4));
    loaded.machine.gates[0] = Gate { pc: 9, pair: Pair::new(240, 240) };
    loaded.machine.gate_count = 1;
    let loaded = stepped(loaded);
    let back = Return { pc: 1, pair: Pair::new(240, 240) };
    assert_eq!(loaded.machine.first, Call::Gate(back));
    assert_eq!((loaded.machine.pc, loaded.machine.clock), (9, 10));
}

#[test]
fn it_has_no_line_in_a_listing() {
    let code: Vec<u32> = writes(ZERO_REGISTER).iter().map(|&(word, _)| word).collect();
    let mut draft = plain(&[&code[..], &[HALT]].concat());
    ready(&mut draft);
    let mut loaded = Loaded::of(&draft);
    loaded.run();
    // Ops 1 to 7 and 14 take a tick each, ops 8 and 9 three, ops 15 and 16 two, ops 23 and 24
    // thirty-four, the halt one.
    assert_eq!((loaded.machine.end, loaded.machine.clock), (1, 8 + 3 + 3 + 2 * 2 + 2 * 34 + 1));
    assert!(!loaded.listing().contains("R,0,"));
}
