//! "Firings to check": the starred facts, the listings, and the laws of labels.

mod common;

use common::{fire, in_upcall, plain, Loaded};
use interpreter::instruction::{encode, encode_registers, op};
use interpreter::label::{may_raise, may_relabel};
use interpreter::{Label, Pair};

fn all_labels() -> impl Iterator<Item = Label> {
    (0..=255).map(Label)
}

#[test]
fn flows_join_and_meet_of_255_with_15_and_0() {
    assert!(Label(255).flows_to(Label(15)));
    assert!(!Label(255).flows_to(Label(0)));
    assert_eq!(Label(255).join(Label(0)), Label(15));
    assert_eq!(Label(255).meet(Label(0)), Label(240));
}

#[test]
fn eighteen_is_not_sound_and_51_is() {
    assert!(!Label(18).is_sound());
    assert!(Label(51).is_sound());
}

#[test]
fn raises_and_relabellings_of_the_table() {
    assert!(!may_raise(Label(255), Label(15), Label(255)));
    assert!(may_raise(Label(240), Label(15), Label(240)));
    assert!(may_relabel(Label(255), Label(240), Label(240)));
    assert!(!may_relabel(Label(15), Label(0), Label(0)));
}

#[test]
fn label_operations_are_those_of_the_two_sets() {
    for a in all_labels() {
        let (i, c) = (a.0 / 16, a.0 % 16);
        assert_eq!(a.reflection(), Label(c * 16 + i));
        assert_eq!(a.is_sound(), c & i == c);
        for b in all_labels() {
            let (j, d) = (b.0 / 16, b.0 % 16);
            assert_eq!(a.flows_to(b), j & i == j && c & d == c);
            assert_eq!(a.join(b), Label((i & j) * 16 + (c | d)));
            assert_eq!(a.meet(b), Label((i | j) * 16 + (c & d)));
        }
    }
}

#[test]
fn lowest_and_highest_are_240_and_15() {
    for label in all_labels() {
        assert!(Label::LOWEST.flows_to(label) && label.flows_to(Label::HIGHEST));
    }
}

#[test]
fn relabelling_downwards_needs_only_that_p_flows_there_and_the_label_is_sound() {
    for from in all_labels() {
        for to in all_labels().filter(|to| to.flows_to(from)) {
            for p in all_labels() {
                let simple = p.flows_to(to) && from.is_sound();
                assert_eq!(may_relabel(from, to, p), simple);
            }
        }
    }
}

#[test]
fn op_8_takes_2_3_4_and_10_ticks() {
    for (factor, ticks) in [(0, 2), (1, 3), (16, 4), (u32::MAX, 10)] {
        let mut draft = plain(&[encode_registers(op::MULTIPLY, 1, 2, 3, 0)]);
        draft.register(2, 240, 3);
        draft.register(3, 240, factor);
        let mut loaded = Loaded::of(&draft);
        loaded.steps(1);
        assert_eq!(loaded.machine.clock, ticks);
        assert_eq!(loaded.value(1), 3u32.wrapping_mul(factor));
    }
}

#[test]
fn op_8_takes_10_ticks_when_a_factor_is_hidden_from_t() {
    for (left, right) in [(255, 240), (240, 255)] {
        let mut draft = plain(&[encode_registers(op::MULTIPLY, 1, 2, 3, 0)]);
        draft.register(1, 255, 0);
        draft.register(2, left, 1);
        draft.register(3, right, 1);
        let mut loaded = Loaded::of(&draft);
        loaded.steps(1);
        assert_eq!((loaded.machine.clock, loaded.value(1)), (10, 1));
    }
}

#[test]
fn upcall_at_clock_10_is_back_at_33_or_with_no_time_at_13() {
    for (time, back) in [(20, 33), (0, 13)] {
        let mut draft = in_upcall(time, &[encode(op::END_UPCALL, 0, 0, 0)]);
        // Ten ticks before the upcall, which now stands at place 10.
        let upcall = draft.words[0].value;
        for address in 0..10 {
            draft.word(address, 240, encode(op::SET, 0, 0, 0));
        }
        draft.word(10, 240, upcall);
        draft.word(11, 240, encode(op::END_UPCALL, 0, 0, 0));
        let mut loaded = Loaded::of(&draft);
        loaded.steps(10);
        assert_eq!(loaded.machine.clock, 10);
        loaded.steps(2);
        assert_eq!((loaded.machine.clock, loaded.machine.pc), (back, 30));
        assert_eq!(loaded.value(15), 1);
        assert_eq!(loaded.machine.pair, Pair::new(240, 240));
    }
}

const WORDS: &str = "W,0,240,17825797\nW,1,240,34672640\nW,2,240,369098752\n";

#[test]
fn the_first_listing() {
    let expected = format!("E,1,0,3,2,240,240\nR,1,240,10\n{WORDS}");
    assert_eq!(fire(&format!("M,8,7,0,240,240,100\n{WORDS}")), expected);
    assert_eq!(fire(&format!("M,8,7,0,240,240,3\n{WORDS}")), expected);
}

#[test]
fn limit_2_ends_before_the_halt() {
    let expected = format!("E,2,0,2,2,240,240\nR,1,240,10\n{WORDS}");
    assert_eq!(fire(&format!("M,8,7,0,240,240,2\n{WORDS}")), expected);
}

#[test]
fn an_empty_word_at_the_error_pc_stalls_at_once() {
    assert_eq!(fire("M,1,0,0,240,240,5\n"), "E,3,3,0,0,240,240\n");
}
