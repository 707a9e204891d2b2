//! The layout that the comparisons read and write is the one that
//! `include/jennydusk.h` tells its users.

use beside::calls::{NO_RECORD, SHORT_BUFFER, TICK_LATE};
use beside::certificate;
use beside::layout::{at, SPAN};
use interpreter::certificate::cause;
use interpreter::hex::{BAD_BYTE, BAD_RECORD};
use interpreter::load::BAD_GATE_PAIR;

const HEADER: &str = include_str!("../../../include/jennydusk.h");

/// What stands behind a name that the header defines, without the comment.
fn defined(name: &str) -> &'static str {
    let start = format!("#define JENNYDUSK_{name} ");
    let line = HEADER.lines().find(|line| line.starts_with(&start));
    let rest = line.unwrap_or_else(|| panic!("{name} is in the header")).split_at(start.len()).1;
    rest.split("/*").next().unwrap_or(rest).trim()
}

fn number(name: &str) -> usize {
    defined(name).parse().unwrap_or_else(|_| panic!("{name} is a number"))
}

#[test]
fn the_places_of_single_numbers() {
    let places = [
        ("SPAN", SPAN),
        ("SIZE", at::SIZE),
        ("LIMIT", at::LIMIT),
        ("ERROR_PC", at::ERROR_PC),
        ("GATE_COUNT", at::GATE_COUNT),
        ("PC", at::PC),
        ("PC_LABEL", at::PC_LABEL),
        ("TIMING_LABEL", at::TIMING_LABEL),
        ("CLOCK", at::CLOCK),
        ("END", at::END),
        ("WHY", at::WHY),
    ];
    for (name, place) in places {
        assert_eq!(number(name), place, "{name}");
    }
}

#[test]
fn the_places_of_gates_calls_and_registers() {
    let rules = [
        ("GATE(k)", "(4 + 3 * (k))", at::gate(7), 4 + 3 * 7),
        ("CALL(k)", "(32 + 5 * (k))", at::call(1), 32 + 5),
        ("VALUE(k)", "(44 + (k))", at::value(15), 44 + 15),
        ("LABEL(k)", "(60 + (k))", at::label(15), 60 + 15),
    ];
    for (name, rule, place, value) in rules {
        assert_eq!((defined(name), place), (rule, value), "{name}");
    }
}

#[test]
fn the_five_words_of_a_call_and_its_kinds() {
    let words = ["KIND", "RETURN_PC", "PC_LABEL", "TIMING_LABEL", "END_TICK"];
    let places = words.map(|word| number(&format!("CALL_{word}")));
    assert_eq!(places, [0, 1, 2, 3, 4]);
    assert_eq!(["EMPTY", "GATE_CALL", "UPCALL"].map(number), [0, 1, 2]);
}

#[test]
fn the_words_of_a_certificate_and_its_causes() {
    let places = [certificate::at::CAUSE, certificate::at::TICK, certificate::at::PLACE];
    assert_eq!(["CAUSE", "BREAK_TICK", "PLACE"].map(number), places);
    assert_eq!(number("CERTIFICATE_SPAN"), certificate::SPAN);
    let names = ["NO_BREAK", "RELEASE", "AT_LARGE", "TIMED_FROM_OUTSIDE"];
    let causes = [cause::NO_BREAK, cause::RELEASE, cause::AT_LARGE, cause::TIMED_FROM_OUTSIDE];
    assert_eq!(names.map(|name| number(name) as u64), causes);
    assert_eq!(causes, [0, 1, 2, 3]);
}

#[test]
fn the_papers_numbers() {
    assert_eq!(["RUNNING", "HALTED", "CLOCK_SPENT", "STALLED"].map(number), [0, 1, 2, 3]);
    assert_eq!(["WHY_PC", "WHY_LABEL", "WHY_OP"].map(number), [1, 2, 3]);
    let refusals = ["TEXT_LENGTH", "MALFORMED", "RANGE", "ORDER", "PAIR"].map(number);
    assert_eq!(refusals, [1, 2, 3, 4, 5]);
    assert_eq!(["DONE", "SHORT_MEMORY", "NO_RECORD", "SHORT_OUTPUT"].map(number), [0, 6, 7, 8]);
    assert_eq!(number("NO_RECORD") as u64, NO_RECORD);
    assert_eq!(["ZERO_REGISTER", "TICK"].map(number), [9, 10]);
    assert_eq!(number("TICK") as u64, TICK_LATE);
    assert_eq!(["HEX_RECORD", "HEX_BYTE"].map(number), [11, 12]);
    assert_eq!(["HEX_RECORD", "HEX_BYTE"].map(number), [BAD_RECORD, BAD_BYTE].map(usize::from));
    assert_eq!([number("GATE_PAIR"), usize::from(BAD_GATE_PAIR)], [13, 13]);
}

/// The paper's table has no such refusal, and so no such number.
#[test]
fn the_number_of_a_short_buffer() {
    assert_eq!(number("SHORT_BUFFER") as u64, SHORT_BUFFER);
}
