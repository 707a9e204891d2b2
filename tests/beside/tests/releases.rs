//! What the comparison of releases asks of a pair, and when it calls a release
//! steered. A hypothesis that is taken too widely, or a conclusion that is taken too
//! narrowly, would hide what it is there to find, and no pair would tell.

use beside::layout::words_of;
use beside::library::Library;
use beside::other::Other;
use beside::pairs::seen::State;
use beside::releases::conclusion::{releases, steered, Release, Steered, Step};
use beside::releases::hypotheses::{broken, Hypothesis};
use beside::releases::outsider::Outsider;
use beside::releases::stepped::{lend, step};
use beside::releases::Pair;
use interpreter::draft::Draft;
use interpreter::generator::random::Random;
use interpreter::instruction::{encode, op};
use interpreter::label::EVERYONE;
use interpreter::machine::end;
use interpreter::{Call, Label, Pair as LabelPair, Register, Return};

/// Trusted with the first principal, shut out from the second's secrets. So 34, of
/// the second alone, is trusted and secret, 17 is neither, and 18 is not sound.
const OUTSIDER: Outsider = Outsider { trusted_with: 1, shut_out_from: 2 };

const SECRET: u8 = 34;
const UNTRUSTED: u8 = 17;
const UNTRUSTED_SECRET: u8 = 18;
const FREE: u8 = 240;

/// Locations: registers come first, then words.
const REGISTERS: usize = 16;

/// Relabels R5, which is secret, to what R3 holds, the lowest label. R6 and words 1
/// and 3 are not trusted, the other words are. One gate; a gate call open, and an
/// upcall over it.
fn state() -> State {
    let mut draft = Draft::of_code(&[encode(op::RELABEL, 5, 3, 0), 7, 8, 9, 10], 100);
    draft.register(3, FREE, FREE.into());
    draft.register(5, SECRET, 77);
    draft.register(6, UNTRUSTED, 66);
    draft.word(1, UNTRUSTED, 7);
    draft.word(3, UNTRUSTED_SECRET, 9);
    draft.gate(2, 240, 240);
    let (mut machine, words, labels) = draft.loaded();
    (machine.clock, machine.first, machine.second) = (10, gate_call(1, 240), upcall(50));
    State { machine, words, labels }
}

fn gate_call(pc: u32, label: u8) -> Call {
    Call::Gate(Return { pc, pair: LabelPair::new(label, label) })
}

fn upcall(end_tick: u64) -> Call {
    Call::Upcall(Return { pc: 1, pair: LabelPair::new(240, 240) }, end_tick)
}

fn pair_of(other: State) -> Pair {
    Pair { outsider: OUTSIDER, one: state(), other, beyond: 0 }
}

/// What a pair breaks whose second record has this change, whichever comes first.
fn broken_by(change: impl Fn(&mut State)) -> Vec<Hypothesis> {
    let mut other = state();
    change(&mut other);
    let pair = pair_of(other.clone());
    let exchanged = Pair { one: other, other: state(), ..pair.clone() };
    let broken = [&pair, &exchanged].map(broken);
    assert_eq!(broken[0], broken[1]);
    broken[0].clone()
}

/// Changes a register, or a word with its label.
fn change(state: &mut State, location: usize, change: impl Fn(&mut Register)) {
    if let Some(register) = state.machine.registers.get_mut(location) {
        return change(register);
    }
    let address = location - REGISTERS;
    let mut word = state.word(address);
    change(&mut word);
    (state.words[address], state.labels[address]) = (word.value, word.label.0);
}

#[test]
fn what_is_not_trusted_may_differ_in_value_and_label() {
    assert_eq!(broken_by(|_| {}), []);
    for label in (0..=u8::MAX).map(Label).filter(|label| !OUTSIDER.is_trusted_label(*label)) {
        let other = Register { value: 1, label };
        let untrusted = [6, REGISTERS + 1, REGISTERS + 3];
        let broken = broken_by(|state| {
            untrusted.iter().for_each(|&location| change(state, location, |read| *read = other));
        });
        assert_eq!(broken, [], "label {}", label.0);
    }
}

#[test]
fn what_stands_behind_the_gates_may_differ() {
    let broken = broken_by(|state| {
        state.machine.gates[1].pc = 9;
        state.machine.gates[7].pair = LabelPair::new(15, 0);
    });
    assert_eq!(broken, []);
}

#[test]
fn each_part_of_the_control_is_asked_for_by_itself() {
    type Change = (Hypothesis, fn(&mut State));
    let changes: [Change; 17] = [
        (Hypothesis::Size, |s| {
            s.machine.size -= 1;
            s.words.pop();
            s.labels.pop();
        }),
        (Hypothesis::Gates, |s| s.machine.gates[0].pc += 1),
        (Hypothesis::Gates, |s| s.machine.gates[0].pair.timing = Label(255)),
        (Hypothesis::Gates, |s| s.machine.gate_count = 0),
        (Hypothesis::Gates, |s| s.machine.gate_count = 2),
        (Hypothesis::ErrorPc, |s| s.machine.error_pc += 1),
        (Hypothesis::Limit, |s| s.machine.limit += 1),
        (Hypothesis::Pc, |s| s.machine.pc += 1),
        (Hypothesis::LabelPair, |s| s.machine.pair.timing = Label(255)),
        (Hypothesis::LabelPair, |s| s.machine.pair = LabelPair::new(255, 255)),
        (Hypothesis::Clock, |s| s.machine.clock += 1),
        (Hypothesis::Calls, |s| s.machine.second = Call::Empty),
        (Hypothesis::Calls, |s| s.machine.first = gate_call(2, 240)),
        (Hypothesis::Calls, |s| s.machine.first = gate_call(1, 255)),
        (Hypothesis::Calls, |s| s.machine.second = upcall(51)),
        (Hypothesis::Running, |s| s.machine.end = end::HALTED),
        (Hypothesis::WellFormed, |s| s.machine.why = 1),
    ];
    for (number, (hypothesis, change)) in changes.into_iter().enumerate() {
        assert_eq!(broken_by(change), [hypothesis], "change {number}");
    }
}

#[test]
fn two_ended_records_are_not_spoken_of() {
    let mut ended = pair_of(state());
    (ended.one.machine.end, ended.other.machine.end) = (end::HALTED, end::HALTED);
    assert_eq!(broken(&ended), [Hypothesis::Running]);
}

#[test]
fn every_trusted_location_is_asked_for_its_value_and_its_label() {
    let is_trusted: Vec<bool> =
        state().locations().map(|location| OUTSIDER.is_trusted_label(location.label)).collect();
    // Register 0 is what it is in every well-formed record.
    for location in (1..is_trusted.len()).filter(|&location| is_trusted[location]) {
        let valued = broken_by(|state| change(state, location, |read| read.value ^= 1 << 31));
        assert_eq!(valued, [Hypothesis::TrustedValues], "location {location}");
        let labelled = broken_by(|state| change(state, location, |read| read.label = Label(51)));
        assert_eq!(labelled, [Hypothesis::TrustedLabels], "location {location}");
    }
    let count = is_trusted.iter().filter(|is_trusted| **is_trusted).count();
    assert_eq!((count, is_trusted.len()), (18, REGISTERS + 5));
}

#[test]
fn a_location_must_be_trusted_in_both_or_in_neither() {
    // Whatever the label is that one of them has instead, and though the values are equal.
    for label in 0..=u8::MAX {
        let (trusts, is_other) = (OUTSIDER.is_trusted_label(Label(label)), label != SECRET);
        let register = broken_by(|state| state.machine.registers[5].label = Label(label));
        let word = broken_by(|state| state.labels[3] = label);
        let due = match (trusts, is_other) {
            (false, _) => vec![Hypothesis::WhatIsTrusted],
            (true, true) => vec![Hypothesis::TrustedLabels],
            (true, false) => vec![],
        };
        assert_eq!(register, due, "label {label}");
        assert_eq!(word.is_empty(), !trusts, "label {label}");
    }
}

#[test]
fn s_within_j_is_not_spoken_of_and_every_other_s_is() {
    let sets = (0..=EVERYONE).flat_map(|j| (0..=EVERYONE).map(move |s| (j, s)));
    for (j, s) in sets {
        let outsider = Outsider { trusted_with: j, shut_out_from: s };
        let pair = Pair { outsider, ..pair_of(state()) };
        let outside = (0..4).any(|bit| s >> bit & 1 == 1 && j >> bit & 1 == 0);
        let due = if outside { vec![] } else { vec![Hypothesis::ShutOut] };
        assert_eq!(broken(&pair), due, "j {j}, s {s}");
    }
}

/// A step of the state above that changes something.
fn changing(change: impl Fn(&mut State)) -> Step {
    let mut after = state();
    change(&mut after);
    Step { before: state(), after }
}

/// A step that relabels register 5.
fn relabelling(from: u8, to: u8) -> Step {
    let mut step = changing(|state| state.machine.registers[5].label = Label(to));
    step.before.machine.registers[5].label = Label(from);
    step
}

/// The step that relabels register 5 as the state's op does.
fn releasing() -> Step {
    relabelling(SECRET, FREE)
}

#[test]
fn a_label_that_is_secret_before_and_not_after_is_a_release() {
    let release =
        Release { location: 5, from: Label(SECRET), to: Label(FREE), before: 77, after: 77 };
    assert_eq!(releases(OUTSIDER, &releasing()), [release]);
    let word = changing(|state| state.labels[3] = 16);
    let (from, to) = (Label(UNTRUSTED_SECRET), Label(16));
    let location = REGISTERS + 3;
    let release = Release { location, from, to, before: 9, after: 9 };
    assert_eq!(releases(OUTSIDER, &word), [release]);
}

#[test]
fn releases_are_the_changes_from_secret_to_not_secret_for_every_two_labels() {
    let has_second = |label: u8| label & 2 != 0;
    let labels = (0..=u8::MAX).flat_map(|from| (0..=u8::MAX).map(move |to| (from, to)));
    for (from, to) in labels {
        let due = usize::from(has_second(from) && !has_second(to));
        let step = relabelling(from, to);
        assert_eq!(releases(OUTSIDER, &step).len(), due, "from {from} to {to}");
    }
}

#[test]
fn of_several_principals_one_that_is_lacking_is_enough() {
    let outsider = Outsider { trusted_with: 1, shut_out_from: 6 };
    let from_to = |from: u8, to: u8| releases(outsider, &relabelling(from, to)).len();
    assert_eq!(from_to(0x66, 0x62), 1);
    assert_eq!(from_to(0x66, 0x64), 1);
    assert_eq!(from_to(0x66, 0x60), 1);
    assert_eq!(from_to(0x66, 0x6e), 0);
    assert_eq!(from_to(0x62, 0x60), 0);
}

#[test]
fn a_value_that_changes_and_a_label_that_stays_secret_release_nothing() {
    let steps = [
        changing(|state| state.machine.registers[5].value = 1),
        changing(|state| state.machine.registers[5].label = Label(51)),
        changing(|state| state.machine.registers[3].label = Label(UNTRUSTED)),
        changing(|state| state.machine.registers[3].label = Label(SECRET)),
        changing(|state| state.machine.pair = LabelPair::new(255, 255)),
    ];
    for step in steps {
        assert_eq!(releases(OUTSIDER, &step), []);
        assert_eq!(steered(OUTSIDER, &step, &releasing()), None);
    }
}

#[test]
fn the_same_release_is_steered_by_nobody() {
    let mut other = releasing();
    for state in [&mut other.before, &mut other.after] {
        state.machine.registers[6] = Register { value: 0, label: Label(0) };
        state.words[3] = 0;
    }
    assert_eq!(steered(OUTSIDER, &releasing(), &other), None);
    assert_eq!(steered(OUTSIDER, &other, &releasing()), None);
}

#[test]
fn each_part_of_the_conclusion_is_told_where_it_fails() {
    type Change = (Steered, fn(&mut Step));
    let changes: [Change; 8] = [
        (Steered::NotReleased, |step| step.after.machine.registers[5].label = Label(SECRET)),
        (Steered::NotReleased, |step| step.after.machine.registers[5].label = Label(51)),
        (Steered::NotReleased, |step| step.before.machine.registers[5].label = Label(FREE)),
        (Steered::Location, |step| {
            step.after.machine.registers[5].label = Label(SECRET);
            step.before.machine.registers[4] = Register { value: 77, label: Label(SECRET) };
            step.after.machine.registers[4] = Register { value: 77, label: Label(FREE) };
        }),
        (Steered::OldLabel, |step| step.before.machine.registers[5].label = Label(50)),
        (Steered::NewLabel, |step| step.after.machine.registers[5].label = Label(224)),
        (Steered::Value, |step| step.before.machine.registers[5].value = 78),
        (Steered::Value, |step| step.after.machine.registers[5].value = 78),
    ];
    for (number, (how, change)) in changes.into_iter().enumerate() {
        let mut other = releasing();
        change(&mut other);
        assert_eq!(steered(OUTSIDER, &releasing(), &other), Some(how), "change {number}");
    }
}

#[test]
fn a_released_value_that_both_change_alike_is_told() {
    let step = changing(|state| {
        state.machine.registers[5] = Register { value: 78, label: Label(FREE) };
    });
    assert_eq!(steered(OUTSIDER, &step, &step.clone()), Some(Steered::Changed));
}

#[test]
fn a_word_released_in_one_alone_and_another_word_are_told() {
    let word = |address: usize| {
        let mut step = changing(|state| state.labels[address] = FREE);
        step.before.labels[address] = SECRET;
        step
    };
    let still = changing(|_| {});
    assert_eq!(steered(OUTSIDER, &word(2), &word(2)), None);
    assert_eq!(steered(OUTSIDER, &word(2), &still), Some(Steered::NotReleased));
    assert_eq!(steered(OUTSIDER, &word(2), &word(3)), Some(Steered::Location));
    assert_eq!(steered(OUTSIDER, &still, &word(2)), None);
}

#[test]
fn of_two_releases_each_must_be_that_of_the_other() {
    let mut both = releasing();
    both.before.labels[2] = SECRET;
    both.after.labels[2] = FREE;
    assert_eq!(steered(OUTSIDER, &both, &both.clone()), None);
    assert_eq!(steered(OUTSIDER, &releasing(), &both), None);
    assert_eq!(steered(OUTSIDER, &both, &releasing()), Some(Steered::Location));
}

/// What a step of the library, or of the interpreter, releases.
fn released(state: &State) -> Vec<Release> {
    let mut random = Random::new(1);
    let mut step = |calls| {
        let lent = lend(&mut random, state, 0);
        releases(OUTSIDER, &step(calls, state, lent).expect("a well-formed record steps"))
    };
    let (ours, theirs) = (step(&Library), step(&Other));
    assert_eq!(ours, theirs);
    ours
}

#[test]
fn a_step_releases_unless_the_limit_the_end_tick_or_a_check_stops_it() {
    let due = releases(OUTSIDER, &releasing());
    let with = |change: fn(&mut State)| {
        let mut state = state();
        change(&mut state);
        released(&state)
    };
    assert_eq!(with(|_| {}), due);
    assert_eq!(with(|s| s.machine.limit = 12), due);
    assert_eq!(with(|s| s.machine.second = upcall(12)), due);
    assert_eq!(with(|s| s.machine.limit = 11), []);
    assert_eq!(with(|s| s.machine.second = upcall(11)), []);
    assert_eq!(with(|s| s.machine.registers[3].label = Label(UNTRUSTED)), []);
    assert_eq!(with(|s| s.machine.registers[5].label = Label(UNTRUSTED_SECRET)), []);
    assert_eq!(with(|s| s.labels[0] = UNTRUSTED), []);
}

#[test]
fn a_refused_step_is_told() {
    let mut short = lend(&mut Random::new(1), &state(), 0);
    short.words.lend(3, 0);
    assert!(step(&Library, &state(), short).is_err());
    let mut unfit = lend(&mut Random::new(1), &state(), 0);
    let mut machine = state().machine;
    machine.why = 1;
    unfit.record.get_mut().copy_from_slice(&words_of(&machine));
    assert!(step(&Library, &state(), unfit).is_err());
}
