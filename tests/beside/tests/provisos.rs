//! What breaks a proviso and what doesn't, and which ticks are reached. A proviso
//! that is taken too widely, or a tick that is taken for unreached, would hide
//! pairs that differ, and no pair would tell.

use beside::pairs::check::state_at;
use beside::pairs::provisos::bounds;
use beside::pairs::seen::{are_alike, State};
use beside::pairs::trace::Trace;
use interpreter::draft::Draft;
use interpreter::instruction::{encode, encode_registers, op};
use interpreter::{Label, Pair};

/// The level of all these: what is labelled 240 is seen, 255 is not.
const LEVEL: Label = Label(240);

/// An image of this code under this pair. Registers 1 to 4 hold 0, 255, 240 and
/// 15 under the lowest label; register 5 is hidden.
fn image(p: u8, t: u8, code: &[u32]) -> Draft {
    let mut draft = Draft::of_code(code, 100);
    draft.pair = Pair::new(p, t);
    draft.register(2, 240, 255);
    draft.register(3, 240, 240);
    draft.register(4, 240, 15);
    draft.register(5, 255, 7);
    draft
}

/// The states of so many steps.
fn trace(draft: &Draft, steps: usize) -> Trace {
    let (mut machine, mut words, labels) = draft.loaded();
    let mut states = vec![State { machine: machine.clone(), words: words.clone(), labels }];
    for _ in 0..steps {
        let labels = states[0].labels.clone();
        machine.step(&mut words, &labels).unwrap();
        states.push(State { machine: machine.clone(), words: words.clone(), labels });
    }
    Trace { states }
}

fn gate_call() -> u32 {
    encode(op::GATE_CALL, 0, 1, 0)
}

#[test]
fn a_relabel_from_outside_to_within_lowers_at_the_clock_it_leaves() {
    let draft = image(240, 240, &[encode(op::RELABEL, 5, 3, 0)]);
    let trace = trace(&draft, 1);
    assert_eq!(trace.last().machine.registers[5].label, Label(240));
    assert_eq!(bounds(LEVEL, &trace), [Some(2), None, None]);
}

#[test]
fn a_raise_from_within_and_a_relabel_outside_lower_nothing() {
    let code = [encode(op::RAISE, 6, 2, 0), encode(op::RELABEL, 5, 4, 0)];
    let trace = trace(&image(240, 240, &code), 2);
    let registers = trace.last().machine.registers;
    assert_eq!((registers[6].label, registers[5].label), (Label(255), Label(15)));
    assert_eq!(bounds(LEVEL, &trace), [None; 3]);
}

#[test]
fn a_gate_call_from_outside_to_within_breaks_its_proviso() {
    let mut draft = image(255, 255, &[gate_call()]);
    draft.gate(0, 240, 240);
    assert_eq!(bounds(LEVEL, &trace(&draft, 1)), [None, Some(4), None]);
}

#[test]
fn a_gate_call_that_stays_on_its_side_breaks_nothing() {
    for label in [240, 255] {
        let mut draft = image(label, label, &[gate_call()]);
        draft.gate(0, label, label);
        let trace = trace(&draft, 1);
        assert_eq!(trace.last().machine.clock, 4);
        assert!(!trace.last().machine.first.is_empty());
        assert_eq!(bounds(LEVEL, &trace), [None; 3]);
    }
}

#[test]
fn an_op_20_spent_at_the_limit_and_an_ended_record_at_one_break_nothing() {
    let mut draft = image(255, 255, &[gate_call()]);
    draft.gate(0, 240, 240);
    draft.limit = 3;
    let trace = trace(&draft, 3);
    assert_eq!((trace.last().machine.end, trace.last().machine.pc), (2, 0));
    assert_eq!(bounds(LEVEL, &trace), [None; 3]);
}

#[test]
fn a_close_that_brings_p_within_breaks_nothing() {
    let code = [encode_registers(op::UPCALL, 1, 2, 2, 1), encode(op::END_UPCALL, 0, 0, 0)];
    let trace = trace(&image(240, 240, &code), 2);
    let within: Vec<bool> = trace.states.iter().map(|state| state.shows_control(LEVEL)).collect();
    assert_eq!(within, [true, false, true]);
    assert_eq!(bounds(LEVEL, &trace), [None; 3]);
}

#[test]
fn p_within_and_t_outside_breaks_from_the_loaded_state_on_and_both_outside_do_not() {
    let code = [encode(op::SET, 0, 0, 0)];
    assert_eq!(bounds(LEVEL, &trace(&image(240, 255, &code), 1)), [None, None, Some(0)]);
    assert_eq!(bounds(LEVEL, &trace(&image(255, 255, &code), 1)), [None; 3]);
}

#[test]
fn every_tick_is_reached_after_an_end_and_those_below_the_clock_before() {
    let code = [encode_registers(op::UPCALL, 2, 2, 2, 1), encode(op::SET, 0, 0, 0)];
    assert_eq!(trace(&image(240, 240, &code), 2).unreached(), Some(3));
    assert_eq!(trace(&image(240, 240, &[encode(op::HALT, 0, 0, 0)]), 1).unreached(), None);
}

#[test]
fn of_two_states_with_one_clock_the_later_is_the_state_at_that_tick() {
    let stall = trace(&Draft::new(1, 0, 0, Pair::new(240, 240), 5), 1);
    assert_eq!((stall.states[0].machine.end, state_at(&stall, 0).machine.end), (0, 3));
}

#[test]
fn a_step_that_finishes_later_is_not_seen_before() {
    let trace = trace(&image(240, 240, &[encode(op::STORE, 2, 1, 0)]), 1);
    assert_eq!(state_at(&trace, 2), &trace.states[0]);
    assert_eq!(state_at(&trace, 3), &trace.states[1]);
}

#[test]
fn alike_sees_labels_and_values_within_and_control_only_where_p_is_within() {
    let code = [encode(op::SET, 0, 0, 0)];
    let state = |draft: &Draft| trace(draft, 0).states[0].clone();
    let seen = state(&image(240, 240, &code));
    let hidden = state(&image(255, 255, &code));
    assert!(!are_alike(LEVEL, &seen, &hidden));
    let mut other = seen.clone();
    other.machine.registers[5].value += 1;
    other.machine.registers[5].label = Label(15);
    assert!(are_alike(LEVEL, &seen, &other));
    other.machine.registers[1].value += 1;
    assert!(!are_alike(LEVEL, &seen, &other));
    let mut other = hidden.clone();
    other.machine.pc += 1;
    assert!(are_alike(LEVEL, &hidden, &other));
    assert!(!are_alike(Label(255), &hidden, &other));
}
