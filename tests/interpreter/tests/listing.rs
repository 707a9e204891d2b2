//! The listing, and the program that prints it.

mod common;

use common::{in_gate, in_upcall, plain, Loaded};
use interpreter::instruction::{encode, encode_registers, op};
use interpreter::{print, Pair};
use std::io::{Read, Write};
use std::process::{Command, Stdio};

const HALT: u32 = 22 << 24;

fn first_line(loaded: &Loaded) -> String {
    loaded.listing().lines().next().unwrap().to_string()
}

fn call_lines(loaded: &Loaded) -> Vec<String> {
    let listing = loaded.listing();
    listing.lines().filter(|line| line.starts_with('F')).map(str::to_string).collect()
}

#[test]
fn f_lines_have_the_kept_place_and_pair_older_first() {
    let code = [encode_registers(op::UPCALL, 3, 2, 2, 3), encode(op::LOAD, 0, 0, 0)];
    let mut draft = in_gate(Pair::new(240, 255), &code);
    draft.register(2, 240, 255);
    draft.register(3, 240, 20);
    let mut loaded = Loaded::of(&draft);
    loaded.steps(1);
    assert_eq!(call_lines(&loaded), ["F,1,1,255,255,0"]);
    loaded.steps(1);
    assert_eq!(call_lines(&loaded), ["F,1,1,255,255,0", "F,2,20,240,255,26"]);
    let loaded = Loaded::of(&in_upcall(20, &[]));
    assert!(call_lines(&loaded).is_empty());
}

#[test]
fn the_e_lines_place_after_each_end() {
    let mut halted = Loaded::of(&plain(&[encode(op::SET, 0, 0, 0), HALT]));
    halted.run();
    assert_eq!(first_line(&halted), "E,1,0,2,1,240,240");

    let mut draft = plain(&[encode(op::SET, 0, 0, 0), encode(op::LOAD, 0, 0, 0)]);
    draft.limit = 3;
    let mut spent = Loaded::of(&draft);
    spent.run();
    assert_eq!(first_line(&spent), "E,2,0,3,1,240,240");

    let mut stalled = Loaded::of(&plain(&[encode(op::SET, 0, 0, 0)]));
    stalled.run();
    assert_eq!(first_line(&stalled), "E,3,3,2,31,240,240");
}

#[test]
fn lines_are_those_that_differ_in_value_or_in_label() {
    let mut draft = plain(&[]);
    draft.register(3, 15, 0);
    draft.register(4, 240, 7);
    draft.register(5, 240, 0);
    draft.word(30, 0, 0);
    draft.word(31, 240, 8);
    let expected = "E,0,0,0,0,240,240\nR,3,15,0\nR,4,240,7\nW,30,0,0\nW,31,240,8\n";
    assert_eq!(Loaded::of(&draft).listing(), expected);
}

#[test]
fn an_output_of_the_listings_length_is_enough_and_one_byte_less_is_8() {
    let loaded = Loaded::of(&plain(&[HALT]));
    let listing = loaded.listing();
    let Loaded { machine, words, labels } = loaded;
    let mut output = vec![1; listing.len() + 5];
    assert_eq!(print(&machine, &words, &labels, &mut output), Ok(listing.len()));
    assert_eq!(&output[..listing.len()], listing.as_bytes());
    assert_eq!(&output[listing.len()..], [1; 5]);
    let mut exact = vec![1; listing.len()];
    assert_eq!(print(&machine, &words, &labels, &mut exact), Ok(listing.len()));
    let mut short = vec![1; listing.len() - 1];
    assert_eq!(print(&machine, &words, &labels, &mut short), Err(8));
    assert_eq!(short, vec![1; listing.len() - 1]);
}

#[test]
fn words_beyond_the_size_are_not_listed() {
    let mut loaded = Loaded::of(&plain(&[]));
    loaded.words[32] = 5;
    assert_eq!(loaded.listing(), "E,0,0,0,0,240,240\n");
}

#[test]
fn the_longest_listing_is_below_46_000_bytes() {
    let mut draft = plain(&[]);
    draft.words.resize(2_048, draft.words[0]);
    for address in 0..2_048 {
        draft.word(address, 255, u32::MAX);
    }
    for number in 1..16 {
        draft.register(number, 255, u32::MAX);
    }
    let length = Loaded::of(&draft).listing().len();
    // A record's own lines are an E line and two F lines, at most 35 bytes each.
    assert!(length > 44_000 && length + 3 * 35 < 46_000);
}

/// Feeds the program, whose standard input stays open when `hold` is set.
fn program(text: &[u8], hold: bool) -> String {
    let mut child = Command::new(env!("CARGO_BIN_EXE_firing_rs"))
        .stdin(Stdio::piped())
        .stdout(Stdio::piped())
        .spawn()
        .unwrap();
    let mut input = child.stdin.take().unwrap();
    input.write_all(text).unwrap();
    let held = hold.then_some(input);
    let mut output = String::new();
    child.stdout.take().unwrap().read_to_string(&mut output).unwrap();
    assert!(child.wait().unwrap().success());
    drop(held);
    output
}

#[test]
fn the_program_prints_the_listing() {
    let text = b"M,8,7,0,240,240,100\nW,0,240,17825797\nW,1,240,34672640\nW,2,240,369098752\n";
    let words = "W,0,240,17825797\nW,1,240,34672640\nW,2,240,369098752\n";
    assert_eq!(program(text, false), format!("E,1,0,3,2,240,240\nR,1,240,10\n{words}"));
}

#[test]
fn the_program_prints_an_x_line_ending_in_lf_for_a_refusal() {
    assert_eq!(program(b"", false), "X,1,0\n");
    assert_eq!(program(b"M,8,7,0,240,240,100\nR,16,240,0\n", false), "X,3,2\n");
    assert_eq!(program(b"M,8,7,0,255,240,100\n", false), "X,5,1\n");
}

#[test]
fn the_program_reads_no_more_than_it_takes_to_know_that_a_text_is_too_long() {
    assert_eq!(program(&vec![b'9'; 65_536], true), "X,1,0\n");
}
