//! How long op 8 takes: "Op 8 takes 2 + ceiling(k / 4), k being Rc's significant
//! bits, if Lb and Lc flow to t, else 10." Every count, its smallest and its largest
//! number, every way in which the labels flow to t or don't, passed and failed.

mod common;

use common::{in_upcall, plain, Loaded};
use interpreter::draft::Draft;
use interpreter::instruction::{encode, encode_registers, op};
use interpreter::{fire_for, Certificate, Label, Pair};

/// The ticks by k, from 0 to 32.
const TICKS: [u64; 33] = [
    2, 3, 3, 3, 3, 4, 4, 4, 4, 5, 5, 5, 5, 6, 6, 6, 6, 7, 7, 7, 7, 8, 8, 8, 8, 9, 9, 9, 9, 10, 10,
    10, 10,
];

/// "else 10"
const HIDDEN_TICKS: u64 = 10;

const END_UPCALL: u32 = 19 << 24;
const HALT: u32 = 22 << 24;

/// Rb, and what R1 holds before; no product here is the latter.
const LEFT: u32 = 5;
const KEPT: u32 = 77;

/// The labels of a multiply under (p, t): those of its factors, one to which the
/// join of p, Lb and Lc flows, and one to which it doesn't.
#[derive(Clone, Copy, Debug)]
struct Labels {
    pair: (u8, u8),
    factors: (u8, u8),
    passing: u8,
    failing: u8,
}

const fn labels(pair: (u8, u8), factors: (u8, u8), passing: u8, failing: u8) -> Labels {
    Labels { pair, factors, passing, failing }
}

/// Both labels flow to t; to p both, one of them or neither.
const IN_SIGHT: [Labels; 5] = [
    labels((241, 241), (240, 240), 241, 240),
    labels((240, 241), (240, 241), 241, 240),
    labels((240, 241), (241, 240), 241, 240),
    labels((240, 241), (241, 241), 255, 242),
    labels((0, 0), (0, 16), 0, 240),
];

/// Only Lb flows to t: Lc doesn't by its secrecy, by its trust, by both. Then only
/// Lc does, and then neither.
const HIDDEN: [Labels; 9] = [
    labels((240, 241), (241, 242), 243, 242),
    labels((240, 240), (240, 224), 224, 240),
    labels((240, 241), (241, 15), 15, 255),
    labels((240, 241), (242, 241), 243, 241),
    labels((240, 240), (224, 240), 225, 240),
    labels((240, 241), (15, 241), 15, 14),
    labels((240, 241), (242, 242), 242, 241),
    labels((240, 240), (242, 224), 226, 242),
    labels((255, 255), (15, 15), 15, 255),
];

/// The smallest and the largest number of each count, with the count.
fn numbers() -> impl Iterator<Item = (usize, u32)> {
    let of_count = |k: usize| [1 << (k - 1), u32::MAX >> (32 - k)].map(|number| (k, number));
    [(0, 0)].into_iter().chain((1..TICKS.len()).flat_map(of_count))
}

/// Every number under each of these labels.
fn tries(all: &[Labels]) -> impl Iterator<Item = (Labels, usize, u32)> + '_ {
    all.iter().flat_map(|&labels| numbers().map(move |(k, number)| (labels, k, number)))
}

/// R1 := R2 × R3 by this factor, to pass or to fail.
fn multiplying(labels: Labels, factor: u32, passes: bool) -> Draft {
    let mut draft = plain(&[encode_registers(op::MULTIPLY, 1, 2, 3, 0), HALT]);
    let Labels { pair, factors, passing, failing } = labels;
    draft.pair = Pair::new(pair.0, pair.1);
    draft.register(1, if passes { passing } else { failing }, KEPT);
    draft.register(2, factors.0, LEFT);
    draft.register(3, factors.1, factor);
    draft
}

/// What one step leaves of an image.
fn stepped(draft: &Draft) -> Loaded {
    let mut loaded = Loaded::of(draft);
    loaded.steps(1);
    loaded
}

/// The step takes these ticks, and the product is there or R1 is as it was.
fn check(labels: Labels, factor: u32, ticks: u64) {
    let product = LEFT.wrapping_mul(factor);
    for (passes, due) in [(true, product), (false, KEPT)] {
        let loaded = stepped(&multiplying(labels, factor, passes));
        let left = (loaded.machine.clock, loaded.machine.pc, loaded.value(1));
        assert_eq!(left, (ticks, 1, due), "{labels:?}, {factor}, passes: {passes}");
    }
}

#[test]
fn where_both_labels_flow_to_t_the_count_of_rc_decides() {
    for (labels, k, factor) in tries(&IN_SIGHT) {
        check(labels, factor, TICKS[k]);
    }
}

#[test]
fn where_one_label_does_not_flow_to_t_it_takes_ten_ticks_whatever_the_count() {
    for (labels, _, factor) in tries(&HIDDEN) {
        check(labels, factor, HIDDEN_TICKS);
    }
}

#[test]
fn the_bits_of_rb_do_not_count() {
    for (_, left) in numbers() {
        let of_factor = |factor| {
            let mut draft = multiplying(IN_SIGHT[1], factor, true);
            draft.registers[2].value = left;
            stepped(&draft).machine.clock
        };
        assert_eq!([0, 1, 16, u32::MAX].map(of_factor), [2, 3, 4, 10], "{left}");
    }
}

#[test]
fn a_register_by_itself_is_timed_by_its_own_count() {
    for (k, factor) in numbers() {
        let mut draft = plain(&[encode_registers(op::MULTIPLY, 1, 1, 1, 0)]);
        draft.register(1, 240, factor);
        let loaded = stepped(&draft);
        assert_eq!(
            (loaded.machine.clock, loaded.value(1)),
            (TICKS[k], factor.wrapping_mul(factor))
        );
    }
}

#[test]
fn into_register_0_it_takes_the_same_ticks() {
    let in_sight = tries(&IN_SIGHT).map(|(labels, k, factor)| (labels, factor, TICKS[k]));
    let hidden = tries(&HIDDEN).map(|(labels, _, factor)| (labels, factor, HIDDEN_TICKS));
    for (labels, factor, ticks) in in_sight.chain(hidden) {
        let mut draft = multiplying(labels, factor, true);
        draft.word(0, 240, encode_registers(op::MULTIPLY, 0, 2, 3, 0));
        let mut due = Loaded::of(&draft);
        (due.machine.clock, due.machine.pc) = (ticks, 1);
        assert_eq!(stepped(&draft), due);
    }
}

#[test]
fn register_0_counts_no_bits_and_hides_nothing() {
    // R1 := R0 × R3, then R1 := R2 × R0.
    for (labels, k, factor) in tries(&IN_SIGHT) {
        let mut draft = multiplying(labels, factor, true);
        draft.word(0, 240, encode_registers(op::MULTIPLY, 1, 0, 3, 0));
        assert_eq!(stepped(&draft).machine.clock, TICKS[k]);
        draft.word(0, 240, encode_registers(op::MULTIPLY, 1, 2, 0, 0));
        assert_eq!(stepped(&draft).machine.clock, TICKS[0]);
    }
}

#[test]
fn the_timing_label_of_the_moment_decides() {
    for (k, factor) in numbers() {
        let multiply = encode_registers(op::MULTIPLY, 1, 2, 3, 0);
        let mut draft = plain(&[multiply, encode_registers(op::SET_PAIR, 0, 4, 5, 0), multiply]);
        draft.register(1, 241, KEPT);
        draft.register(2, 241, LEFT);
        draft.register(3, 241, factor);
        draft.register(4, 240, 240);
        draft.register(5, 240, 241);
        let mut loaded = Loaded::of(&draft);
        loaded.steps(2);
        assert_eq!((loaded.machine.clock, loaded.machine.pair), (12, Pair::new(240, 241)));
        loaded.steps(1);
        assert_eq!(loaded.machine.clock, 12 + TICKS[k]);
    }
}

#[test]
fn the_limit_bars_it_a_tick_short_and_not_where_it_is_just_enough() {
    for (labels, k, factor) in tries(&[IN_SIGHT[1], HIDDEN[0]]) {
        let ticks = if labels.factors == IN_SIGHT[1].factors { TICKS[k] } else { HIDDEN_TICKS };
        let of_limit = |limit| {
            let mut draft = multiplying(labels, factor, true);
            draft.limit = limit;
            let loaded = stepped(&draft);
            (loaded.machine.end, loaded.machine.clock, loaded.value(1))
        };
        assert_eq!(of_limit(ticks), (0, ticks, LEFT.wrapping_mul(factor)));
        assert_eq!(of_limit(ticks - 1), (2, ticks - 1, KEPT));
    }
}

/// An upcall of so many ticks under (255, 255), with a multiply in it and then op 19,
/// and where it stands after the multiply: its clock and R5.
fn in_upcall_of(time: u64, lc: u8, factor: u32) -> (u64, u32) {
    let multiply = encode_registers(op::MULTIPLY, 5, 6, 7, 0);
    let mut draft = in_upcall(time as u32, &[multiply, END_UPCALL]);
    draft.register(5, 15, KEPT);
    draft.register(6, 255, LEFT);
    draft.register(7, lc, factor);
    let mut loaded = Loaded::of(&draft);
    loaded.steps(2);
    (loaded.machine.clock, loaded.value(5))
}

#[test]
fn at_the_end_tick_it_is_done_and_a_tick_past_it_the_upcall_closes() {
    let in_sight = numbers().map(|(k, factor)| (255, factor, TICKS[k]));
    let hidden = numbers().map(|(_, factor)| (15, factor, HIDDEN_TICKS));
    for (lc, factor, ticks) in in_sight.chain(hidden) {
        // The upcall is open from clock 2 on; a close finishes a tick past its end.
        let done = (2 + ticks, LEFT.wrapping_mul(factor));
        assert_eq!(in_upcall_of(ticks, lc, factor), done);
        assert_eq!(in_upcall_of(ticks - 1, lc, factor), (2 + ticks, KEPT));
    }
}

/// What 240 sees at each tick of an image that multiplies by a hidden factor, on
/// either side, passed and failed, and reads the clock behind that.
fn views(factor: u32) -> Vec<Vec<u8>> {
    let code = [
        encode_registers(op::MULTIPLY, 5, 6, 7, 0),
        encode_registers(op::MULTIPLY, 5, 7, 6, 0),
        encode_registers(op::MULTIPLY, 1, 7, 7, 0),
        encode(op::READ_CLOCK, 2, 0, 0),
        HALT,
    ];
    let mut draft = plain(&code);
    draft.register(5, 255, KEPT);
    draft.register(6, 240, LEFT);
    draft.register(7, 255, factor);
    let mut loaded = Loaded::of(&draft);
    let certificate = loaded.machine.certify(Label(240), &mut loaded.words, &loaded.labels);
    assert_eq!(certificate, Ok(Certificate::WHOLE));
    let last = 3 * HIDDEN_TICKS + 2;
    (0..=last).map(|tick| fire_for(&draft.text(), Label(240), tick)).collect()
}

#[test]
fn a_view_is_the_same_whatever_the_count_of_a_hidden_factor() {
    let first = views(0);
    let end = String::from_utf8(first.last().unwrap().clone()).unwrap();
    assert!(end.starts_with("E,1,0,32,4,240,240\nR,2,240,30\n"), "{end}");
    for (_, factor) in numbers() {
        assert_eq!(views(factor), first);
    }
}
