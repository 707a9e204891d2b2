//! A listing for one viewer: which steps are done at a tick, what the label sees
//! of them, and the refusals. The firings are worked out by hand.

mod common;

use common::{in_gate, in_upcall, plain, Loaded};
use interpreter::draft::Draft;
use interpreter::generator::Generator;
use interpreter::instruction::{encode, encode_registers, op};
use interpreter::view::read_arguments;
use interpreter::{fire_for, print_for, view, Label, NoView, Pair, Register};
use std::fs::{self, File};
use std::path::Path;
use std::process::{Command, Output};

const HALT: u32 = 22 << 24;
const END_UPCALL: u32 = 19 << 24;

/// What was in the memory and the output before.
const WORD: u32 = 7;
const LABEL: u8 = 8;
const BYTE: u8 = 9;

/// A view in memory of 2,048 words and so much output: the answer, and what it
/// left.
struct Viewed {
    answer: Result<usize, NoView>,
    words: Vec<u32>,
    labels: Vec<u8>,
    output: Vec<u8>,
}

fn viewed(text: &[u8], viewer: u8, tick: u64, output: usize) -> Viewed {
    let (mut words, mut labels) = (vec![WORD; 2_048], vec![LABEL; 2_048]);
    let mut output = vec![BYTE; output];
    let answer = view(text, Label(viewer), tick, &mut words, &mut labels, &mut output);
    Viewed { answer, words, labels, output }
}

/// What a program prints that views the image.
fn listed(draft: &Draft, viewer: u8, tick: u64) -> String {
    String::from_utf8(fire_for(&draft.text(), Label(viewer), tick)).unwrap()
}

/// The first line of it.
fn first_line(draft: &Draft, viewer: u8, tick: u64) -> String {
    listed(draft, viewer, tick).lines().next().unwrap().to_string()
}

/// The lines of it with this letter.
fn lines_of(draft: &Draft, viewer: u8, tick: u64, letter: char) -> Vec<String> {
    let listing = listed(draft, viewer, tick);
    listing.lines().filter(|line| line.starts_with(letter)).map(str::to_string).collect()
}

/// Word 9 set to 5 in three ticks, then a halt in one.
fn store() -> Draft {
    let mut draft = plain(&[encode(op::STORE, 1, 2, 0), HALT]);
    draft.register(1, 240, 5);
    draft.register(2, 240, 9);
    draft
}

#[test]
fn a_stall_at_the_tick_is_done() {
    let draft = Draft::new(1, 0, 0, Pair::new(240, 240), 5);
    for tick in 0..=5 {
        assert_eq!(listed(&draft, 240, tick), "E,3,3,0,0,240,240\n");
    }
    // A set, then a failed fetch that leads to the error pc, which fails too.
    let draft = plain(&[encode(op::SET, 1, 0, 9)]);
    let lines = [0, 1, 2, 3].map(|tick| first_line(&draft, 240, tick));
    let stalled = "E,3,3,2,31,240,240";
    assert_eq!(lines, ["E,0,0,0,0,240,240", "E,0,0,1,1,240,240", stalled, stalled]);
}

#[test]
fn at_the_limit_the_step_to_end_2_is_done_and_below_it_is_not() {
    let mut draft = plain(&[encode(op::BRANCH_EQUAL, 0, 0, 0)]);
    draft.limit = 3;
    assert_eq!(first_line(&draft, 240, 2), "E,0,0,2,0,240,240");
    assert_eq!(first_line(&draft, 240, 3), "E,2,0,3,0,240,240");
    // An op of three ticks that the limit bars: the step finishes at the limit.
    let mut draft = store();
    draft.limit = 2;
    let lines = [0, 1, 2].map(|tick| first_line(&draft, 240, tick));
    assert_eq!(lines, ["E,0,0,0,0,240,240", "E,0,0,0,0,240,240", "E,2,0,2,0,240,240"]);
}

#[test]
fn a_failed_fetch_at_the_error_pc_at_the_limit_is_end_2() {
    let mut draft = plain(&[encode(op::SET, 1, 0, 9)]);
    draft.limit = 2;
    assert_eq!(first_line(&draft, 240, 1), "E,0,0,1,1,240,240");
    assert_eq!(first_line(&draft, 240, 2), "E,2,0,2,31,240,240");
}

#[test]
fn a_halt_is_done_at_the_tick_that_it_leaves() {
    assert_eq!(first_line(&store(), 240, 3), "E,0,0,3,1,240,240");
    assert_eq!(first_line(&store(), 240, 4), "E,1,0,4,1,240,240");
    assert_eq!(first_line(&store(), 240, 1_000), "E,1,0,4,1,240,240");
}

#[test]
fn a_store_that_would_pass_the_tick_is_not_begun() {
    for tick in 0..3 {
        assert_eq!(first_line(&store(), 240, tick), "E,0,0,0,0,240,240");
        assert_eq!(viewed(&store().text(), 240, tick, 100).words[9], 0);
    }
    assert_eq!(first_line(&store(), 240, 3), "E,0,0,3,1,240,240");
    assert_eq!(viewed(&store().text(), 240, 3, 100).words[9], 5);
    assert!(listed(&store(), 240, 3).ends_with("\nW,9,240,5\n"));
}

#[test]
fn a_multiply_of_ten_ticks_is_not_begun_before_the_tenth() {
    let mut draft = plain(&[encode_registers(op::MULTIPLY, 1, 2, 3, 0)]);
    draft.register(2, 240, 3);
    draft.register(3, 240, u32::MAX);
    assert_eq!(first_line(&draft, 240, 9), "E,0,0,0,0,240,240");
    assert!(!listed(&draft, 240, 9).contains("R,1,"));
    assert_eq!(first_line(&draft, 240, 10), "E,0,0,10,1,240,240");
    assert!(listed(&draft, 240, 10).contains("\nR,1,240,4294967293\n"));
}

#[test]
fn a_failed_check_takes_its_ticks_here_too() {
    let mut draft = store();
    draft.pair = Pair::new(255, 255);
    let lines = [2, 3].map(|tick| first_line(&draft, 255, tick));
    assert_eq!(lines, ["E,0,0,0,0,255,255", "E,0,0,3,1,255,255"]);
    assert_eq!(viewed(&draft.text(), 255, 3, 100).words[9], 0);
}

#[test]
fn an_upcall_is_open_from_the_tick_after_op_18_to_its_end_tick() {
    // Open at clock 2 to end tick 5; op 19 closes it at 6; then a halt.
    let draft = in_upcall(3, &[END_UPCALL]);
    assert_eq!(first_line(&draft, 255, 1), "E,0,0,0,0,240,240");
    for tick in 2..=5 {
        assert_eq!(first_line(&draft, 255, tick), "E,0,0,2,1,255,255");
        assert_eq!(lines_of(&draft, 255, tick, 'F'), ["F,2,30,240,240,5"]);
        assert_eq!(lines_of(&draft, 255, tick, 'R').last().unwrap(), "R,15,255,0");
    }
    assert_eq!(first_line(&draft, 255, 6), "E,0,0,6,30,240,240");
    assert_eq!(lines_of(&draft, 255, 6, 'R').last().unwrap(), "R,15,255,1");
    assert_eq!(first_line(&draft, 255, 7), "E,1,0,7,30,240,240");
}

#[test]
fn a_close_that_the_limit_bars_is_end_2_at_the_limit_and_not_before() {
    let mut draft = in_upcall(3, &[END_UPCALL]);
    draft.limit = 5;
    assert_eq!(first_line(&draft, 255, 4), "E,0,0,2,1,255,255");
    assert_eq!(first_line(&draft, 255, 5), "E,2,0,5,1,255,255");
    assert_eq!(lines_of(&draft, 255, 5, 'F'), ["F,2,30,240,240,5"]);
}

#[test]
fn a_gate_call_is_done_at_its_fourth_tick() {
    let draft = in_gate(Pair::new(240, 240), &[]);
    assert_eq!(first_line(&draft, 255, 3), "E,0,0,0,0,255,255");
    assert_eq!(first_line(&draft, 255, 4), "E,0,0,4,8,240,240");
    assert_eq!(lines_of(&draft, 255, 4, 'F'), ["F,1,1,255,255,0"]);
    // At 240 the pc is hidden before the call; after it the call is seen whole.
    assert_eq!(first_line(&draft, 240, 3), "H");
    assert_eq!(lines_of(&draft, 240, 4, 'F'), ["F,1,1,255,255,0"]);
}

#[test]
fn a_line_h_stands_for_the_e_and_f_lines() {
    let draft = in_upcall(3, &[END_UPCALL]);
    for tick in 2..=5 {
        assert_eq!(first_line(&draft, 240, tick), "H");
        assert!(lines_of(&draft, 240, tick, 'E').is_empty());
        assert!(lines_of(&draft, 240, tick, 'F').is_empty());
    }
    assert_eq!(first_line(&draft, 240, 6), "E,0,0,6,30,240,240");
}

#[test]
fn a_line_h_may_be_the_only_line() {
    let draft = Draft::new(1, 0, 0, Pair::new(255, 255), 5);
    assert_eq!(listed(&draft, 240, 0), "H\n");
    assert_eq!(listed(&draft, 255, 0), "E,3,3,0,0,255,255\n");
}

#[test]
fn the_place_label_decides_and_the_clock_label_does_not() {
    let draft = Draft::new(1, 0, 0, Pair::new(240, 255), 5);
    assert_eq!(listed(&draft, 240, 0), "E,3,3,0,0,240,255\n");
    // 0 holds nobody's secret and is trusted by none; 240 flows to it.
    let draft = Draft::new(1, 0, 0, Pair::new(0, 0), 5);
    assert_eq!(listed(&draft, 240, 0), "H\n");
    assert_eq!(listed(&draft, 255, 0), "H\n");
    assert_eq!(listed(&draft, 15, 0), "E,3,3,0,0,0,0\n");
}

#[test]
fn lines_are_those_seen_that_differ_in_value_or_label() {
    let mut draft = plain(&[HALT]);
    draft.register(3, 240, 7);
    draft.register(4, 255, 7);
    draft.register(5, 255, 0);
    draft.register(6, 0, 7);
    draft.register(7, 240, 0);
    draft.word(8, 240, 9);
    draft.word(9, 255, 9);
    draft.word(10, 0, 0);
    draft.word(31, 17, 3);
    let control = "E,0,0,0,0,240,240\n";
    let (low, high) = ("W,0,240,369098752\nW,8,240,9\n", "R,4,255,7\nR,5,255,0\n");
    assert_eq!(listed(&draft, 240, 0), format!("{control}R,3,240,7\n{low}"));
    assert_eq!(listed(&draft, 255, 0), format!("{control}R,3,240,7\n{high}{low}W,9,255,9\n"));
    let all = format!("R,3,240,7\n{high}R,6,0,7\n{low}W,9,255,9\nW,10,0,0\nW,31,17,3\n");
    assert_eq!(listed(&draft, 15, 0), format!("{control}{all}"));
    assert_eq!(listed(&draft, 17, 0), format!("{control}R,3,240,7\n{low}W,31,17,3\n"));
}

#[test]
fn a_location_is_seen_by_the_label_that_it_has_at_the_tick() {
    let mut draft = plain(&[encode(op::RAISE, 5, 2, 0)]);
    draft.register(2, 240, 255);
    draft.register(5, 240, 7);
    assert_eq!(lines_of(&draft, 240, 1, 'R'), ["R,2,240,255", "R,5,240,7"]);
    assert_eq!(lines_of(&draft, 240, 2, 'R'), ["R,2,240,255"]);
    assert_eq!(lines_of(&draft, 255, 2, 'R'), ["R,2,240,255", "R,5,255,7"]);
}

#[test]
fn a_tick_above_the_limit_is_10_with_the_limit_and_leaves_memory_as_loaded() {
    let mut draft = store();
    draft.limit = 50;
    let text = draft.text();
    for tick in [51, 1 << 32, u64::MAX] {
        let Viewed { answer, words, labels, output } = viewed(&text, 15, tick, 100);
        assert_eq!(answer, Err(NoView { number: 10, value: 50 }));
        let loaded = Loaded::of(&draft);
        assert_eq!((&words[..32], &labels[..32]), (&loaded.words[..32], &loaded.labels[..32]));
        assert!(words[32..] == [WORD; 2_016] && labels[32..] == [LABEL; 2_016]);
        assert_eq!(output, [BYTE; 100]);
    }
    assert_eq!(viewed(&text, 15, 50, 100).answer, Ok(listed(&draft, 15, 50).len()));
    assert_eq!(listed(&draft, 15, 51), "X,10,50\n");
    assert_eq!(listed(&Draft::new(1, 0, 0, Pair::new(240, 240), 5), 15, 6), "X,10,5\n");
}

#[test]
fn an_output_too_short_is_8_with_the_memory_of_the_tick() {
    let text = store().text();
    for tick in [0, 3] {
        let listing = listed(&store(), 240, tick);
        let whole = viewed(&text, 240, tick, listing.len() + 5);
        assert_eq!(whole.answer, Ok(listing.len()));
        assert_eq!(&whole.output[..listing.len()], listing.as_bytes());
        assert_eq!(&whole.output[listing.len()..], [BYTE; 5]);
        assert_eq!(viewed(&text, 240, tick, listing.len()).answer, Ok(listing.len()));
        for length in [0, listing.len() - 1] {
            let Viewed { answer, words, labels, output } = viewed(&text, 240, tick, length);
            assert_eq!(answer, Err(NoView { number: 8, value: 0 }));
            assert_eq!((words, labels), (whole.words.clone(), whole.labels.clone()));
            assert_eq!(output, vec![BYTE; length]);
        }
        assert_eq!(whole.words[9], if tick == 3 { 5 } else { 0 });
    }
}

#[test]
fn a_refused_image_comes_first_then_10_then_8() {
    let bad = "M,1,0,0,240,240,5\nR,16,240,0\n";
    for (tick, output) in [(0, 100), (6, 100), (u64::MAX, 0), (0, 0)] {
        let Viewed { answer, words, labels, output } = viewed(bad.as_bytes(), 240, tick, output);
        assert_eq!(answer, Err(NoView { number: 3, value: 2 }));
        assert!(words == [WORD; 2_048] && labels == [LABEL; 2_048]);
        assert!(output.iter().all(|&byte| byte == BYTE));
    }
    let good = "M,1,0,0,240,240,5\n";
    let answer = |tick, output| viewed(good.as_bytes(), 240, tick, output).answer;
    assert_eq!(answer(6, 0), Err(NoView { number: 10, value: 5 }));
    assert_eq!(answer(5, 0), Err(NoView { number: 8, value: 0 }));
    assert_eq!(answer(5, 18), Ok(18));
    let (mut words, mut labels) = ([WORD; 1], [LABEL; 1]);
    let short = view(b"M,2,0,0,240,240,5\n", Label(240), 6, &mut words, &mut labels, &mut []);
    assert_eq!(short, Err(NoView { number: 6, value: 1 }));
    assert_eq!((words, labels), ([WORD], [LABEL]));
}

#[test]
fn a_run_to_a_tick_goes_on_from_where_the_last_one_stood() {
    let mut loaded = Loaded::of(&store());
    let start = loaded.clone();
    let mut run_to = |tick| {
        loaded.machine.run_to(&mut loaded.words, &loaded.labels, tick).unwrap();
        loaded.clone()
    };
    assert_eq!(run_to(2), start);
    let stored = run_to(3);
    assert_eq!((stored.machine.clock, stored.words[9]), (3, 5));
    // A tick that is past already changes nothing.
    assert_eq!(run_to(0), stored);
    let mut run = start.clone();
    run.run();
    assert_eq!(run_to(u64::MAX), run);
    assert_eq!(run_to(0), run);
}

#[test]
fn a_run_to_a_tick_above_the_limit_runs_to_the_end() {
    let mut draft = plain(&[encode(op::BRANCH_EQUAL, 0, 0, 0)]);
    draft.limit = 3;
    let mut loaded = Loaded::of(&draft);
    loaded.machine.run_to(&mut loaded.words, &loaded.labels, 4).unwrap();
    assert_eq!((loaded.machine.end, loaded.machine.clock), (2, 3));
}

#[test]
fn a_run_to_a_tick_and_a_listing_for_a_label_are_refused_as_run_and_print_are() {
    let Loaded { mut machine, mut words, labels } = Loaded::of(&store());
    let mut output = [BYTE; 4];
    assert_eq!(machine.run_to(&mut words[..31], &labels, 9), Err(6));
    assert_eq!(machine.run_to(&mut words, &labels[..31], 9), Err(6));
    assert_eq!(print_for(&machine, &words[..31], &labels, Label(240), &mut output), Err(6));
    assert_eq!(print_for(&machine, &words, &labels, Label(240), &mut output), Err(8));
    machine.registers[0] = Register { value: 1, label: Label(240) };
    let before = machine.clone();
    assert_eq!(machine.run_to(&mut words[..31], &labels, 9), Err(7));
    assert_eq!(print_for(&machine, &words[..31], &labels, Label(240), &mut output), Err(7));
    assert_eq!((machine, words, output), (before, Loaded::of(&store()).words, [BYTE; 4]));
}

#[test]
fn the_listing_for_the_highest_label_is_the_listing() {
    let mut generator = Generator::new(6);
    for _ in 0..400 {
        let text = String::from_utf8(generator.next_image()).unwrap();
        let Ok(mut loaded) = Loaded::of_text(&text) else {
            continue;
        };
        loaded.steps(20);
        let Loaded { machine, words, labels } = &loaded;
        let mut output = vec![0; 65_536];
        let length = print_for(machine, words, labels, Label::HIGHEST, &mut output).unwrap();
        assert_eq!(String::from_utf8_lossy(&output[..length]), loaded.listing());
    }
}

/// "The state at tick k is that after the last step finishing at or before k, or
/// the loaded one if there is none", found among the states of all steps.
#[test]
fn a_run_to_a_tick_of_generated_images_leaves_the_state_at_it() {
    let mut generator = Generator::new(7);
    for _ in 0..300 {
        let text = String::from_utf8(generator.next_image()).unwrap();
        let Ok(loaded) = Loaded::of_text(&text) else {
            continue;
        };
        let mut states = vec![loaded.clone()];
        while states[states.len() - 1].machine.end == 0 && states.len() < 150 {
            let mut next = states[states.len() - 1].clone();
            next.steps(1);
            states.push(next);
        }
        for tick in 0..states[states.len() - 1].machine.clock {
            let at = states[1..].iter().filter(|state| state.machine.clock <= tick).count();
            let mut run = loaded.clone();
            run.machine.run_to(&mut run.words, &run.labels, tick).unwrap();
            assert!(run == states[at], "tick {tick} of\n{text}");
        }
    }
}

#[test]
fn a_label_and_a_tick_are_written_as_in_a_text() {
    let viewer = |label, tick| Some((Label(label), tick));
    assert_eq!(read_arguments("0", "0"), viewer(0, 0));
    assert_eq!(read_arguments("255", "9999999999"), viewer(255, 9_999_999_999));
    for (label, tick) in [("256", "0"), ("4294967536", "0"), ("034", "0"), ("34", "00")] {
        assert_eq!(read_arguments(label, tick), None);
    }
    for wrong in ["", "-1", "+1", " 1", "1 ", "1x", "1\n", "01", "12345678901"] {
        assert_eq!(read_arguments(wrong, "0"), None, "{wrong:?}");
        assert_eq!(read_arguments("0", wrong), None, "{wrong:?}");
    }
}

/// What the program does with these arguments and an image of `tests/views`.
fn program(arguments: &[&str], image: &str) -> Output {
    let folder = Path::new(env!("CARGO_MANIFEST_DIR")).join("../views/data");
    let input = File::open(folder.join(image)).unwrap();
    let mut command = Command::new(env!("CARGO_BIN_EXE_viewing_rs"));
    command.args(arguments).stdin(input).output().unwrap()
}

#[test]
fn the_program_prints_the_stored_views() {
    let stored = Path::new(env!("CARGO_MANIFEST_DIR")).join("../views/stdout");
    let stored = fs::read_to_string(stored).unwrap();
    let views: Vec<&str> = stored.split("= ").skip(1).collect();
    assert!(!views.is_empty());
    for (head, listing) in views.iter().map(|view| view.split_once('\n').unwrap()) {
        let words: Vec<&str> = head.split(' ').collect();
        let output = program(&words[1..], words[0]);
        assert_eq!(String::from_utf8_lossy(&output.stdout), listing, "{head}");
    }
}

#[test]
fn the_program_prints_nothing_without_a_label_and_a_tick() {
    let wrong: [&[&str]; 5] = [&[], &["240"], &["240", "0", "0"], &["256", "0"], &["240", "00"]];
    for arguments in wrong {
        let Output { status, stdout, stderr } = program(arguments, "stall.txt");
        assert!(!status.success() && stdout.is_empty() && !stderr.is_empty());
    }
}
