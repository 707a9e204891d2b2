//! The text of images: what is accepted, and the order of the refusals.

mod common;

use common::{refusal, Loaded};
use interpreter::{load, Label, Pair, Refusal};

const M: &str = "M,8,7,0,240,240,100\n";

/// The refusal of a text that begins with a good first line.
fn after_m(rest: &str) -> (u8, u64) {
    refusal(&format!("{M}{rest}"))
}

const ACCEPTED: (u8, u64) = (0, 0);

#[test]
fn a_good_text_is_accepted() {
    assert_eq!(after_m("G,1,240,255\nG,1,0,0\nR,1,1,2\nR,15,3,4\nW,0,5,6\nW,7,7,8\n"), ACCEPTED);
}

#[test]
fn a_first_line_that_is_not_m_is_2() {
    for line in ["G,1,240,240\n", "R,1,240,1\n", "W,1,240,1\n", "X,1\n", "\n"] {
        assert_eq!(refusal(line), (2, 1));
    }
}

#[test]
fn a_second_m_is_4_even_out_of_range_and_2_with_too_few_fields() {
    assert_eq!(after_m(M), (4, 2));
    assert_eq!(after_m("M,9999,7,0,999,999,0\n"), (4, 2));
    assert_eq!(after_m("M,8,7,0,255,240,100\n"), (4, 2));
    assert_eq!(after_m("M,8\n"), (2, 2));
    assert_eq!(after_m("M,8,7,0\n"), (2, 2));
}

#[test]
fn an_empty_line_is_2_at_its_own_number() {
    assert_eq!(after_m("\n"), (2, 2));
    assert_eq!(after_m("R,1,240,1\n\nR,2,240,1\n"), (2, 3));
    assert_eq!(after_m("R,1,240,1\n\n"), (2, 3));
}

#[test]
fn a_missing_lf_is_2_before_the_lines_other_causes_and_only_when_reached() {
    assert_eq!(refusal("M,8,7,0,240,240,100"), (2, 1));
    assert_eq!(refusal("M,0,7,0,255,240,0"), (2, 1));
    assert_eq!(after_m("R,99,240,1"), (2, 2));
    assert_eq!(after_m("M,8,7,0,240,240,100"), (2, 2));
    assert_eq!(after_m("R,99,240,1\nR,1,240,1"), (3, 2));
}

#[test]
fn bad_letters_field_counts_and_digits_are_2() {
    let lines = [
        "r,1,240,1",
        "RR,1,240,1",
        " R,1,240,1",
        "R,1,240",
        "R,1,240,1,1",
        "R,1,240,1,",
        "R",
        "R,1,240,12345678901",
        "R,01,240,1",
        "R,1,240,00",
        "R,+1,240,1",
        "R,-1,240,1",
        "R, 1,240,1",
        "R,1,240,1 ",
        "R,1,240,1\r",
        "R,,240,1",
        "R,1,240,",
        "R,1,240,1a",
        "R,\"1\",240,1",
        "R,1,240,1.0",
        "R,1,240,\u{661}",
    ];
    for line in lines {
        assert_eq!(after_m(&format!("{line}\n")), (2, 2), "{line}");
    }
}

#[test]
fn ten_digits_too_large_are_3_and_a_zero_alone_is_good() {
    assert_eq!(after_m("R,1,240,4294967295\n"), ACCEPTED);
    assert_eq!(after_m("R,1,240,4294967296\n"), (3, 2));
    assert_eq!(after_m("R,1,240,9999999999\n"), (3, 2));
    assert_eq!(after_m("R,1,0,0\n"), ACCEPTED);
}

#[test]
fn each_number_has_its_range() {
    let first = [
        "M,0,7,0,240,240,100",
        "M,2049,7,0,240,240,100",
        "M,8,4294967296,0,240,240,100",
        "M,8,7,4294967296,240,240,100",
        "M,8,7,0,256,240,100",
        "M,8,7,0,240,256,100",
        "M,8,7,0,240,240,0",
        "M,8,7,0,240,240,16777217",
    ];
    for line in first {
        assert_eq!(refusal(&format!("{line}\n")), (3, 1), "{line}");
    }
    let later = [
        "G,4294967296,240,240",
        "G,0,256,240",
        "G,0,240,256",
        "R,16,240,0",
        "R,1,256,0",
        "R,1,240,4294967296",
        "W,8,240,0",
        "W,0,256,0",
        "W,0,240,4294967296",
    ];
    for line in later {
        assert_eq!(after_m(&format!("{line}\n")), (3, 2), "{line}");
    }
    assert_eq!(refusal("M,2048,4294967295,4294967295,240,255,16777216\n"), ACCEPTED);
    assert_eq!(refusal("M,1,0,0,240,240,1\n"), ACCEPTED);
}

#[test]
fn kinds_out_of_order_are_4_before_their_numbers_are_tried() {
    assert_eq!(after_m("R,1,240,1\nG,1,240,240\n"), (4, 3));
    assert_eq!(after_m("W,1,240,1\nG,1,999,240\n"), (4, 3));
    assert_eq!(after_m("W,1,240,1\nR,99,240,240\n"), (4, 3));
    assert_eq!(after_m("W,1,240,1\nR,99,240,+240\n"), (2, 3));
}

#[test]
fn rising_is_strict_and_within_one_letter() {
    assert_eq!(after_m("R,3,240,1\nR,3,240,1\n"), (4, 3));
    assert_eq!(after_m("R,3,240,1\nR,2,240,1\n"), (4, 3));
    assert_eq!(after_m("W,3,240,1\nW,3,240,1\n"), (4, 3));
    assert_eq!(after_m("W,3,240,1\nW,0,240,1\n"), (4, 3));
    assert_eq!(after_m("R,5,240,1\nW,0,240,1\n"), ACCEPTED);
}

#[test]
fn out_of_range_and_not_rising_is_3() {
    assert_eq!(after_m("R,3,240,1\nR,2,256,1\n"), (3, 3));
    assert_eq!(after_m("W,3,240,1\nW,3,240,4294967296\n"), (3, 3));
}

#[test]
fn a_ninth_g_is_3_after_2_and_4() {
    let eight = "G,0,240,240\n".repeat(8);
    assert_eq!(after_m(&eight), ACCEPTED);
    assert_eq!(after_m(&format!("{eight}G,0,240,240\n")), (3, 10));
    assert_eq!(after_m(&format!("{eight}G,0,240\n")), (2, 10));
    assert_eq!(after_m(&format!("{eight}R,1,240,1\nG,0,240,240\n")), (4, 11));
}

#[test]
fn an_r_line_for_register_0_is_9_at_its_line_whatever_it_says() {
    for line in ["R,0,240,0\n", "R,0,240,1\n", "R,0,15,0\n", "R,0,255,4294967295\n"] {
        assert_eq!(after_m(line), (9, 2), "{line}");
        assert_eq!(after_m(&format!("G,1,240,240\n{line}")), (9, 3), "{line}");
    }
    // Twice is 9 at the first.
    assert_eq!(after_m("R,0,240,0\nR,0,240,0\n"), (9, 2));
}

#[test]
fn an_r_line_for_register_0_is_tried_for_2_4_and_3_first() {
    for line in ["R,0,240,+0\n", "R,00,240,0\n", "R,0,240\n", "R,0,240,0,\n", "R,0,240,0"] {
        assert_eq!(after_m(line), (2, 2), "{line}");
    }
    assert_eq!(after_m("R,0,256,0\n"), (3, 2));
    assert_eq!(after_m("R,0,240,4294967296\n"), (3, 2));
    assert_eq!(after_m("R,1,240,1\nR,0,240,0\n"), (4, 3));
    assert_eq!(after_m("R,1,240,0\nR,0,256,0\n"), (3, 3));
    assert_eq!(after_m("W,0,240,1\nR,0,240,0\n"), (4, 3));
    assert_eq!(after_m("W,0,240,1\nR,0,256,0\n"), (4, 3));
    // A first line that isn't M.
    assert_eq!(refusal("R,0,240,0\n"), (2, 1));
}

#[test]
fn nine_on_an_earlier_line_comes_before_what_is_wrong_later_and_the_other_way_round() {
    let wrong = [
        ("R,1,240,x\n", 2),
        ("R,16,240,0\n", 3),
        ("G,1,240,240\nM,8,7,0,240,240,100\n", 4),
        ("R,3,240,0\nR,3,240,0\n", 4),
        ("R,1,240,0", 2),
    ];
    for (rest, _) in wrong {
        assert_eq!(after_m(&format!("R,0,240,0\n{rest}")), (9, 2), "{rest}");
    }
    for (rest, number) in &wrong[..4] {
        let line = 1 + rest.lines().count() as u64;
        assert_eq!(after_m(&format!("{rest}R,0,240,0\n")), (*number, line), "{rest}");
    }
    assert_eq!(refusal("M,8,7,0,255,240,100\nR,0,240,0\n"), (5, 1));
    assert_eq!(refusal("M,0,7,0,240,240,100\nR,0,240,0\n"), (3, 1));
}

#[test]
fn nine_leaves_the_memory_and_comes_after_6() {
    let text = format!("{M}R,0,240,0\nW,3,15,9\n");
    for (length, refused) in [(10, (9, 2)), (7, (6, 1))] {
        let (mut words, mut labels) = (vec![5; length], vec![6; length]);
        let Refusal { number, line } = load(text.as_bytes(), &mut words, &mut labels).unwrap_err();
        assert_eq!((number, line), refused);
        assert_eq!((words, labels), (vec![5; length], vec![6; length]));
    }
}

#[test]
fn line_1_is_tried_for_2_then_3_then_5_then_6() {
    let cases = [
        ("M,0,7,0,255,240,1x0\n", 2),
        ("M,8,7,0,255,240,0\n", 3),
        ("M,8,7,0,255,240,100\n", 5),
        ("M,8,7,0,18,18,100\n", 5),
        ("M,8,7,0,240,15,100\n", 5),
        ("M,8,7,0,240,240,100\n", 6),
        ("M,8,7,0,240,240,100\nX\n", 6),
    ];
    for (text, number) in cases {
        for (words, labels) in [(7, 8), (8, 7), (0, 0)] {
            let (mut words, mut labels) = (vec![3; words], vec![4; labels]);
            let refused = load(text.as_bytes(), &mut words, &mut labels);
            assert_eq!(refused, Err(Refusal { number, line: 1 }), "{text}");
            assert!(words.iter().all(|&word| word == 3) && labels.iter().all(|&label| label == 4));
        }
    }
}

#[test]
fn place_and_error_place_need_not_be_below_the_size() {
    assert_eq!(refusal("M,8,4294967295,8,240,240,100\n"), ACCEPTED);
}

#[test]
fn labels_of_registers_and_words_may_be_unsound() {
    assert_eq!(after_m("G,1,255,255\nR,1,15,0\nR,2,18,0\nW,1,15,0\nW,2,18,0\n"), ACCEPTED);
}

#[test]
fn a_g_line_of_an_invalid_pair_is_13_at_its_line() {
    assert_eq!(after_m("G,0,1,1\n"), (13, 2));
    for pair in ["255,240", "240,15", "18,18", "18,240", "0,240", "15,15"] {
        assert_eq!(after_m(&format!("G,1,{pair}\n")), (13, 2), "{pair}");
        assert_eq!(after_m(&format!("G,1,240,240\nG,1,{pair}\n")), (13, 3), "{pair}");
        assert_eq!(after_m(&format!("G,1,{pair}\nG,1,{pair}\n")), (13, 2), "{pair}");
    }
}

#[test]
fn every_valid_pair_is_taken_on_a_g_line_and_no_other() {
    for (p, t) in (0..=255).flat_map(|p| (0..=255).map(move |t| (p, t))) {
        let due = if Pair::new(p, t).is_valid() { ACCEPTED } else { (13, 2) };
        assert_eq!(after_m(&format!("G,1,{p},{t}\n")), due);
    }
}

#[test]
fn a_g_line_of_an_invalid_pair_is_tried_for_2_4_and_3_first() {
    for line in ["G,+1,0,240\n", "G,01,0,240\n", "G,0,240\n", "G,1,0,240,\n", "G,1,0,240"] {
        assert_eq!(after_m(line), (2, 2), "{line}");
    }
    assert_eq!(after_m("G,4294967296,0,240\n"), (3, 2));
    // Cut to a byte the labels of these would make pairs of both sorts.
    for pair in ["256,240", "256,256", "240,256", "496,240", "0,496"] {
        assert_eq!(after_m(&format!("G,1,{pair}\n")), (3, 2), "{pair}");
    }
    assert_eq!(after_m("R,1,240,1\nG,1,0,240\n"), (4, 3));
    assert_eq!(after_m("W,1,240,1\nG,1,0,240\n"), (4, 3));
    // A first line that isn't M.
    assert_eq!(refusal("G,1,0,240\n"), (2, 1));
}

#[test]
fn the_eighth_g_is_tried_for_13_and_the_ninth_for_3() {
    let seven = "G,0,240,240\n".repeat(7);
    assert_eq!(after_m(&format!("{seven}G,0,0,240\n")), (13, 9));
    assert_eq!(after_m(&format!("{seven}G,0,240,240\nG,0,0,240\n")), (3, 10));
    assert_eq!(after_m(&format!("{seven}G,0,0,240\nG,0,0,240\n")), (13, 9));
}

#[test]
fn thirteen_on_an_earlier_line_comes_before_what_is_wrong_later_and_the_other_way_round() {
    let wrong = [
        ("R,1,240,x\n", 2),
        ("G,1,240,256\n", 3),
        ("M,8,7,0,240,240,100\n", 4),
        ("R,3,240,0\nR,3,240,0\n", 4),
        ("R,0,240,0\n", 9),
        ("R,1,240,0", 2),
    ];
    for (rest, _) in wrong {
        assert_eq!(after_m(&format!("G,1,0,240\n{rest}")), (13, 2), "{rest}");
    }
    for (rest, number) in &wrong[..5] {
        let line = 1 + rest.lines().count() as u64;
        assert_eq!(after_m(&format!("{rest}G,1,0,240\n")), (*number, line), "{rest}");
    }
    assert_eq!(refusal("M,8,7,0,255,240,100\nG,1,0,240\n"), (5, 1));
    assert_eq!(refusal("M,0,7,0,240,240,100\nG,1,0,240\n"), (3, 1));
}

#[test]
fn thirteen_leaves_the_memory_and_comes_after_6() {
    let text = format!("{M}G,1,0,240\nW,3,15,9\n");
    for (length, refused) in [(10, (13, 2)), (7, (6, 1))] {
        let (mut words, mut labels) = (vec![5; length], vec![6; length]);
        let Refusal { number, line } = load(text.as_bytes(), &mut words, &mut labels).unwrap_err();
        assert_eq!((number, line), refused);
        assert_eq!((words, labels), (vec![5; length], vec![6; length]));
    }
}

#[test]
fn texts_of_0_and_65536_bytes_are_1_and_65535_are_tried() {
    assert_eq!(refusal(""), (1, 0));
    let long = format!("{M}{}", "9".repeat(65_536 - M.len()));
    assert_eq!(refusal(&long), (1, 0));
    assert_eq!(refusal(&long[1..]), (2, 1));
    assert_eq!(refusal(&long[..65_535]), (2, 2));
}

#[test]
fn a_line_that_says_nothing_new_is_accepted_and_counts_for_rising() {
    assert_eq!(after_m("R,3,240,0\n"), ACCEPTED);
    assert_eq!(after_m("R,3,240,0\nR,3,240,0\n"), (4, 3));
}

#[test]
fn a_load_sets_all_words_below_the_size_and_none_beyond() {
    let (mut words, mut labels) = (vec![5; 10], vec![6; 12]);
    let text = format!("{M}W,3,15,9\n");
    load(text.as_bytes(), &mut words, &mut labels).unwrap();
    assert_eq!(words, [0, 0, 0, 9, 0, 0, 0, 0, 5, 5]);
    assert_eq!(labels, [240, 240, 240, 15, 240, 240, 240, 240, 6, 6, 6, 6]);
}

#[test]
fn a_refused_load_leaves_the_memory_whatever_was_accepted_before() {
    let (mut words, mut labels) = (vec![5; 10], vec![6; 10]);
    let text = format!("{M}W,3,15,9\nW,4,15,9\nW,4,15,9\n");
    let refused = load(text.as_bytes(), &mut words, &mut labels);
    assert_eq!(refused, Err(Refusal { number: 4, line: 4 }));
    assert_eq!((words, labels), (vec![5; 10], vec![6; 10]));
}

#[test]
fn gates_are_numbered_in_order_and_registers_set() {
    let text = format!("{M}G,5,240,255\nG,6,17,17\nR,3,15,9\n");
    let machine = Loaded::of_text(&text).unwrap().machine;
    assert_eq!(machine.gate_count, 2);
    assert_eq!((machine.gates[0].pc, machine.gates[0].pair.timing), (5, Label(255)));
    assert_eq!((machine.gates[1].pc, machine.gates[1].pair.pc), (6, Label(17)));
    assert_eq!((machine.registers[3].value, machine.registers[3].label), (9, Label(15)));
    assert_eq!((machine.registers[2].value, machine.registers[2].label), (0, Label(240)));
    assert_eq!((machine.clock, machine.end, machine.why), (0, 0, 0));
}
