//! When a record is fit, and the refusals of step, run and print.

mod common;

use common::{plain, Loaded};
use interpreter::instruction::{encode, op};
use interpreter::{is_fit, print, print_for, Call, Gate, Label, Machine, Pair, Return};

/// Pairs that are not valid: p doesn't flow to t, t isn't sound, neither is, and p
/// isn't and doesn't flow to t.
const INVALID: [(u8, u8); 4] = [(255, 240), (240, 15), (18, 18), (18, 240)];

fn fit_machine() -> Machine {
    Machine::new(8, 7, 0, Pair::new(240, 240), 100)
}

/// The record after a change.
fn with(change: impl Fn(&mut Machine)) -> Machine {
    let mut machine = fit_machine();
    change(&mut machine);
    machine
}

fn fits(change: impl Fn(&mut Machine)) -> bool {
    is_fit(&with(change))
}

fn back(pc_label: u8, timing_label: u8) -> Return {
    Return { pc: 5, pair: Pair::new(pc_label, timing_label) }
}

fn gate_call() -> Call {
    Call::Gate(back(240, 240))
}

fn upcall() -> Call {
    Call::Upcall(back(240, 240), 50)
}

#[test]
fn size_is_1_to_2048() {
    for (size, fit) in [(0, false), (1, true), (2_048, true), (2_049, false)] {
        assert_eq!(fits(|m| m.size = size), fit);
    }
}

#[test]
fn limit_is_1_to_2_to_the_24() {
    assert!(!fits(|m| m.limit = 0));
    for (limit, fit) in [(1, true), (16_777_216, true), (16_777_217, false)] {
        assert_eq!(fits(|m| m.limit = limit), fit);
    }
}

#[test]
fn gates_are_at_most_eight() {
    for (count, fit) in [(0, true), (8, true), (9, false)] {
        assert_eq!(fits(|m| m.gate_count = count), fit);
    }
}

#[test]
fn why_is_1_to_3_at_end_3_and_else_0() {
    for end in 0..=5 {
        for why in 0..=4 {
            let fit = if end == 3 { (1..=3).contains(&why) } else { end < 3 && why == 0 };
            assert_eq!(fits(|m| (m.end, m.why) = (end, why)), fit);
        }
    }
}

#[test]
fn calls_have_four_shapes() {
    let empty = Call::Empty;
    let shapes = [
        (empty, empty, true),
        (gate_call(), empty, true),
        (upcall(), empty, true),
        (gate_call(), upcall(), true),
        (empty, gate_call(), false),
        (empty, upcall(), false),
        (gate_call(), gate_call(), false),
        (upcall(), upcall(), false),
        (upcall(), gate_call(), false),
    ];
    for (first, second, fit) in shapes {
        assert_eq!(fits(|m| (m.first, m.second) = (first, second)), fit);
    }
}

#[test]
fn clock_is_at_most_the_limit() {
    assert!(fits(|m| m.clock = 100));
    assert!(!fits(|m| m.clock = 101));
}

#[test]
fn current_and_kept_pairs_are_valid() {
    for (pc, timing, valid) in
        [(255, 15, false), (18, 18, false), (255, 240, false), (240, 255, true)]
    {
        let pair = Pair::new(pc, timing);
        assert_eq!(fits(|m| m.pair = pair), valid);
        assert_eq!(fits(|m| m.first = Call::Gate(back(pc, timing))), valid);
        let kept = |m: &mut Machine| {
            m.pair = Pair::new(255, 255);
            m.first = Call::Upcall(back(pc, timing), 50);
        };
        assert_eq!(fits(kept), valid);
    }
}

#[test]
fn the_pairs_of_the_gates_below_their_number_are_valid_and_no_others_are_asked() {
    for count in 0..=8 {
        for (gate, (pc, timing)) in (0..8).flat_map(|gate| INVALID.map(|pair| (gate, pair))) {
            let change = |m: &mut Machine| {
                m.gate_count = count;
                m.gates[gate].pair = Pair::new(pc, timing);
            };
            assert_eq!(fits(change), gate >= count, "gate {gate} of {count}: {pc}, {timing}");
        }
    }
}

#[test]
fn every_valid_pair_can_be_a_gates_and_no_other() {
    for (pc, timing) in (0..=255).flat_map(|pc| (0..=255).map(move |timing| (pc, timing))) {
        let change = |m: &mut Machine| {
            m.gate_count = 3;
            m.gates[1].pair = Pair::new(pc, timing);
        };
        assert_eq!(fits(change), Pair::new(pc, timing).is_valid(), "{pc}, {timing}");
    }
}

#[test]
fn invalid_pairs_behind_the_gates_change_no_step() {
    let mut draft = plain(&[encode(op::GATE_CALL, 0, 1, 0)]);
    draft.gate(5, 240, 240);
    let mut plainly = Loaded::of(&draft);
    let mut beside = plainly.clone();
    let behind = |gates: &mut [Gate]| gates.iter_mut().for_each(|g| g.pair = Pair::new(18, 15));
    behind(&mut beside.machine.gates[1..]);
    plainly.steps(1);
    beside.steps(1);
    assert_eq!((beside.machine.pc, beside.machine.clock), (5, 4));
    behind(&mut plainly.machine.gates[1..]);
    assert_eq!(beside, plainly);
}

#[test]
fn a_gate_of_an_invalid_pair_is_7_before_6_and_8_and_nothing_changes() {
    let unfit = with(|m| {
        m.gate_count = 2;
        m.gates[1].pair = Pair::new(255, 240);
    });
    for length in [7, 8] {
        let (mut words, labels, mut output) = (vec![9; length], vec![9; length], [33; 3]);
        let mut changed = unfit.clone();
        assert_eq!(changed.step(&mut words, &labels), Err(7));
        assert_eq!(changed.run(&mut words, &labels), Err(7));
        assert_eq!(changed.run_to(&mut words, &labels, 5), Err(7));
        assert_eq!(print(&changed, &words, &labels, &mut output), Err(7));
        assert_eq!(print_for(&changed, &words, &labels, Label::HIGHEST, &mut output), Err(7));
        assert_eq!((changed, words, output), (unfit.clone(), vec![9; length], [33; 3]));
    }
}

#[test]
fn an_upcalls_kept_labels_flow_to_the_current_ones() {
    for (kept, fit) in [((240, 240), true), ((255, 255), false), ((240, 255), false)] {
        let call = Call::Upcall(back(kept.0, kept.1), 50);
        assert_eq!(fits(|m| m.first = call), fit);
        assert_eq!(fits(|m| (m.first, m.second) = (gate_call(), call)), fit);
    }
}

#[test]
fn nothing_is_asked_of_a_gate_calls_labels_but_validity() {
    assert!(fits(|m| m.first = Call::Gate(back(255, 255))));
    assert!(fits(|m| (m.first, m.pair) = (gate_call(), Pair::new(255, 255))));
}

#[test]
fn an_end_tick_is_at_least_the_clock_and_below_2_to_the_33() {
    let ticks = [(9, false), (10, true), ((1 << 33) - 1, true), (1 << 33, false)];
    for (end_tick, fit) in ticks {
        let call = Call::Upcall(back(240, 240), end_tick);
        assert_eq!(fits(|m| (m.clock, m.first) = (10, call)), fit);
    }
}

#[test]
fn nothing_else_is_asked_of_an_ended_record() {
    assert!(fits(|m| (m.end, m.clock) = (2, 5)));
    assert!(fits(|m| (m.end, m.first) = (1, upcall())));
    assert!(fits(|m| (m.end, m.why, m.first) = (3, 1, upcall())));
}

#[test]
fn step_and_run_refuse_7_before_6_and_change_nothing() {
    let unfit = with(|m| m.clock = 101);
    for (machine, length, number) in [(unfit, 7, 7), (fit_machine(), 7, 6)] {
        for (words, labels) in [(length, 8), (8, length), (length, length)] {
            let (mut words, labels) = (vec![9; words], vec![9; labels]);
            let mut changed = machine.clone();
            assert_eq!(changed.step(&mut words, &labels), Err(number));
            assert_eq!(changed.run(&mut words, &labels), Err(number));
            assert_eq!(changed, machine);
            assert!(words.iter().all(|&word| word == 9));
        }
    }
}

#[test]
fn an_ended_record_is_refused_too() {
    let mut unfit = with(|m| (m.end, m.why) = (1, 1));
    assert_eq!(unfit.step(&mut [0; 7], &[240; 7]), Err(7));
    let mut ended = with(|m| m.end = 1);
    assert_eq!(ended.step(&mut [0; 7], &[240; 8]), Err(6));
    assert_eq!(ended.run(&mut [0; 8], &[240; 7]), Err(6));
}

#[test]
fn an_ended_record_steps_to_itself() {
    for (end, why) in [(1, 0), (2, 0), (3, 2)] {
        let before = with(|m| (m.end, m.why) = (end, why));
        let mut after = before.clone();
        assert_eq!(after.step(&mut [0; 8], &[240; 8]), Ok(()));
        assert_eq!(after.run(&mut [0; 8], &[240; 8]), Ok(()));
        assert_eq!(after, before);
    }
}

#[test]
fn print_refuses_7_then_6_then_8_and_leaves_the_output() {
    let unfit = with(|m| m.clock = 101);
    let mut output = [33; 3];
    assert_eq!(print(&unfit, &[0; 7], &[240; 7], &mut output), Err(7));
    assert_eq!(print(&fit_machine(), &[0; 7], &[240; 8], &mut output), Err(6));
    assert_eq!(print(&fit_machine(), &[0; 8], &[240; 7], &mut output), Err(6));
    assert_eq!(print(&fit_machine(), &[0; 8], &[240; 8], &mut output), Err(8));
    assert_eq!(output, [33; 3]);
}
