//! Ops 23 and 24: "Op 23 gives the unsigned quotient and op 24 the remainder,
//! each in 34 ticks whoever may see the operands, checked like the other
//! arithmetic."

mod common;

use common::{in_upcall, plain, Loaded};
use interpreter::draft::Draft;
use interpreter::instruction::{encode, encode_registers, op};
use interpreter::{fire_for, Call, Certificate, Label, Pair};

/// "in 34 ticks"
const TICKS: u64 = 34;

/// The edges of what a register holds.
const EDGES: [u32; 8] = [0, 1, 2, 3, 2_147_483_647, 2_147_483_648, 4_294_967_294, 4_294_967_295];

const DIVISIONS: [u8; 2] = [op::DIVIDE, op::REMAINDER];

const END_UPCALL: u32 = 19 << 24;
const HALT: u32 = 22 << 24;

/// Every pair of edges, the dividend first.
fn pairs_of_edges() -> impl Iterator<Item = (u32, u32)> {
    EDGES.into_iter().flat_map(|dividend| EDGES.map(|divisor| (dividend, divisor)))
}

/// R1 := R2 divided by R3, the quotient or the remainder.
fn division(number: u8) -> u32 {
    encode_registers(number, 1, 2, 3, 0)
}

/// An image that begins with a division of these two. Register 1 holds 77.
fn dividing(number: u8, dividend: u32, divisor: u32) -> Draft {
    let mut draft = plain(&[division(number), HALT]);
    draft.register(1, 240, 77);
    draft.register(2, 240, dividend);
    draft.register(3, 240, divisor);
    draft
}

/// What one step leaves of an image.
fn stepped(draft: &Draft) -> Loaded {
    let mut loaded = Loaded::of(draft);
    loaded.steps(1);
    loaded
}

/// What the step leaves when it only takes these ticks and grows the place.
fn passed_by(mut loaded: Loaded, ticks: u64) -> Loaded {
    loaded.machine.clock += ticks;
    loaded.machine.pc += 1;
    loaded
}

/// What a division gives.
fn result(number: u8, dividend: u32, divisor: u32) -> u32 {
    let loaded = stepped(&dividing(number, dividend, divisor));
    assert_eq!((loaded.machine.pc, loaded.machine.clock), (1, TICKS));
    loaded.value(1)
}

#[test]
fn the_dividend_is_quotient_times_divisor_plus_remainder_and_the_remainder_is_below() {
    for (dividend, divisor) in pairs_of_edges().filter(|&(_, divisor)| divisor > 0) {
        let [quotient, remainder] =
            DIVISIONS.map(|number| u64::from(result(number, dividend, divisor)));
        let divisor = u64::from(divisor);
        assert_eq!(quotient * divisor + remainder, u64::from(dividend));
        assert!(remainder < divisor);
    }
}

#[test]
fn quotients_and_remainders_that_were_worked_out_by_hand() {
    let cases = [
        (7, 3, 2, 1),
        (6, 3, 2, 0),
        (3, 7, 0, 3),
        (0, 5, 0, 0),
        (100, 7, 14, 2),
        (1_000_000_000, 65_536, 15_258, 51_712),
        (2_147_483_647, 2, 1_073_741_823, 1),
        (2_147_483_647, 3, 715_827_882, 1),
        (2_147_483_648, 3, 715_827_882, 2),
        (2_147_483_648, 2_147_483_647, 1, 1),
        (4_294_967_294, 2, 2_147_483_647, 0),
        (4_294_967_294, 3, 1_431_655_764, 2),
        (4_294_967_294, 2_147_483_647, 2, 0),
        (4_294_967_294, 4_294_967_295, 0, 4_294_967_294),
        (4_294_967_295, 1, 4_294_967_295, 0),
        (4_294_967_295, 3, 1_431_655_765, 0),
        (4_294_967_295, 2_147_483_647, 2, 1),
        (4_294_967_295, 2_147_483_648, 1, 2_147_483_647),
        (4_294_967_295, 4_294_967_294, 1, 1),
        (4_294_967_295, 4_294_967_295, 1, 0),
    ];
    for (dividend, divisor, quotient, remainder) in cases {
        assert_eq!(result(op::DIVIDE, dividend, divisor), quotient);
        assert_eq!(result(op::REMAINDER, dividend, divisor), remainder);
    }
}

#[test]
fn for_zero_they_are_2_32_minus_1_and_the_dividend() {
    for dividend in EDGES {
        assert_eq!(result(op::DIVIDE, dividend, 0), 4_294_967_295);
        assert_eq!(result(op::REMAINDER, dividend, 0), dividend);
    }
}

#[test]
fn an_operand_is_read_before_the_result_is_written() {
    for (c, quotient, remainder) in [(1, 1, 0), (2, 5, 2)] {
        for (number, due) in DIVISIONS.into_iter().zip([quotient, remainder]) {
            let mut draft = plain(&[encode_registers(number, 1, 1, c, 0)]);
            draft.register(1, 240, 17);
            draft.register(2, 240, 3);
            assert_eq!(stepped(&draft).value(1), due);
        }
    }
    let mut draft = plain(&[encode_registers(op::REMAINDER, 2, 1, 2, 0)]);
    draft.register(1, 240, 17);
    draft.register(2, 240, 3);
    assert_eq!(stepped(&draft).value(2), 2);
}

#[test]
fn unused_bits_are_ignored() {
    for (number, due) in DIVISIONS.into_iter().zip([3, 2]) {
        let mut draft = dividing(number, 17, 5);
        draft.word(0, 240, division(number) | 0xfff);
        assert_eq!(stepped(&draft).value(1), due);
    }
}

#[test]
fn the_ticks_are_34_whoever_may_see_the_operands() {
    for number in DIVISIONS {
        for (dividend, divisor) in pairs_of_edges() {
            let visible = stepped(&dividing(number, dividend, divisor)).value(1);
            for (lb, lc) in [(255, 240), (240, 255), (255, 255), (15, 255)] {
                let mut draft = dividing(number, dividend, divisor);
                draft.register(1, 15, 77);
                draft.register(2, lb, dividend);
                draft.register(3, lc, divisor);
                let loaded = stepped(&draft);
                assert_eq!((loaded.machine.pc, loaded.machine.clock), (1, TICKS));
                assert_eq!(loaded.value(1), visible);
                assert_eq!(loaded.machine.registers[1].label, Label(15));
            }
        }
    }
}

#[test]
fn the_check_is_that_p_lb_and_lc_flow_to_la_and_a_failed_one_takes_34_ticks() {
    let cases = [
        (240, 240, 240, 240, true),
        (240, 255, 240, 255, true),
        (240, 240, 255, 255, true),
        (255, 240, 240, 255, true),
        (255, 240, 240, 240, false),
        (240, 255, 240, 240, false),
        (240, 240, 255, 240, false),
        // The join of 255 and 0 is 15.
        (240, 255, 0, 255, false),
        (240, 255, 0, 0, false),
        (240, 255, 0, 15, true),
    ];
    for number in DIVISIONS {
        for (p, lb, lc, la, passes) in cases {
            for divisor in [0, 5] {
                let mut draft = dividing(number, 17, divisor);
                draft.pair = Pair::new(p, 255);
                draft.registers[1].label = Label(la);
                draft.registers[2].label = Label(lb);
                draft.registers[3].label = Label(lc);
                let due = passed_by(Loaded::of(&draft), TICKS);
                let loaded = stepped(&draft);
                assert_eq!(loaded == due, !passes, "op {number}: {p}, {lb}, {lc} to {la}");
                assert_eq!((loaded.machine.pc, loaded.machine.clock), (1, TICKS));
            }
        }
    }
}

/// An upcall of so many ticks, from clock 2 on, with a division of hidden operands
/// in it and then op 19.
fn dividing_in_upcall(number: u8, time: u32, divisor: u32) -> Draft {
    let mut draft = in_upcall(time, &[encode_registers(number, 5, 6, 7, 0), END_UPCALL]);
    draft.register(5, 15, 77);
    draft.register(6, 15, 17);
    draft.register(7, 15, divisor);
    draft
}

#[test]
fn at_the_end_tick_it_is_done_and_a_tick_past_it_the_upcall_closes_with_cause_2() {
    for (number, due) in DIVISIONS.into_iter().zip([3, 2]) {
        let mut done = Loaded::of(&dividing_in_upcall(number, 34, 5));
        done.steps(2);
        assert_eq!((done.machine.pc, done.machine.clock, done.value(5)), (2, 36, due));
        assert!(done.machine.open_upcall().is_some());
        done.steps(1);
        assert_eq!((done.machine.pc, done.machine.clock, done.value(15)), (30, 37, 1));

        let mut late = Loaded::of(&dividing_in_upcall(number, 33, 5));
        late.steps(2);
        assert_eq!((late.machine.pc, late.machine.clock, late.value(15)), (30, 36, 2));
        assert_eq!((late.machine.first, late.value(5)), (Call::Empty, 77));
    }
}

#[test]
fn neither_zero_nor_a_failed_check_nor_register_0_makes_it_finish_earlier_in_an_upcall() {
    for number in DIVISIONS {
        for (a, la, divisor) in [(5, 15, 0), (5, 240, 5), (5, 240, 0), (0, 240, 5), (0, 240, 0)] {
            let of_time = |time| {
                let mut draft = dividing_in_upcall(number, time, divisor);
                draft.word(1, 240, encode_registers(number, a, 6, 7, 0));
                draft.register(5, la, 77);
                let mut loaded = Loaded::of(&draft);
                loaded.steps(2);
                loaded
            };
            let (done, late) = (of_time(34), of_time(33));
            assert_eq!((done.machine.pc, done.machine.clock), (2, 36));
            assert_eq!((late.machine.pc, late.machine.clock, late.value(15)), (30, 36, 2));
            assert_eq!(late.value(5), 77);
        }
    }
}

#[test]
fn the_limit_bars_it_a_tick_short_and_not_where_it_is_just_enough() {
    for (number, due) in DIVISIONS.into_iter().zip([3, 2]) {
        let mut draft = dividing(number, 17, 5);
        draft.limit = 34;
        let loaded = stepped(&draft);
        assert_eq!((loaded.machine.end, loaded.machine.clock, loaded.value(1)), (0, 34, due));
        draft.limit = 33;
        let mut spent = Loaded::of(&draft);
        (spent.machine.clock, spent.machine.end) = (33, 2);
        assert_eq!(stepped(&draft), spent);
    }
}

#[test]
fn past_the_end_tick_and_the_limit_cause_2_counts() {
    for number in DIVISIONS {
        // The end tick is 12, the limit 13; the division would finish at 36.
        let mut draft = dividing_in_upcall(number, 10, 5);
        draft.limit = 13;
        let mut late = Loaded::of(&draft);
        late.steps(2);
        assert_eq!((late.machine.pc, late.machine.clock, late.value(15)), (30, 13, 2));
        // The end tick is 40: beyond the limit alone it is end 2, the call open.
        let mut draft = dividing_in_upcall(number, 38, 5);
        draft.limit = 35;
        let mut spent = Loaded::of(&draft);
        spent.run();
        assert_eq!((spent.machine.end, spent.machine.clock, spent.machine.pc), (2, 35, 1));
        assert!(spent.machine.open_upcall().is_some());
    }
}

#[test]
fn to_register_0_it_only_takes_its_ticks_and_grows_the_place() {
    for number in DIVISIONS {
        for (dividend, divisor) in pairs_of_edges() {
            let mut draft = dividing(number, dividend, divisor);
            draft.word(0, 240, encode_registers(number, 0, 2, 3, 0));
            assert_eq!(stepped(&draft), passed_by(Loaded::of(&draft), TICKS));
        }
    }
}

#[test]
fn register_0_divides_as_0_and_is_divided_as_0() {
    // Register 4 holds 17.
    let cases = [
        (op::DIVIDE, 4, 0, 4_294_967_295),
        (op::REMAINDER, 4, 0, 17),
        (op::DIVIDE, 0, 4, 0),
        (op::REMAINDER, 0, 4, 0),
        (op::DIVIDE, 0, 0, 4_294_967_295),
        (op::REMAINDER, 0, 0, 0),
    ];
    for (number, b, c, due) in cases {
        let mut draft = plain(&[encode_registers(number, 1, b, c, 0)]);
        draft.register(1, 240, 77);
        draft.register(4, 240, 17);
        let loaded = stepped(&draft);
        assert_eq!((loaded.machine.clock, loaded.value(1)), (TICKS, due));
    }
}

#[test]
fn op_0_and_ops_25_and_above_are_unknown() {
    for number in [0].into_iter().chain(25..=255) {
        let mut draft = dividing(number, 17, 5);
        draft.error_pc = 0;
        let loaded = stepped(&draft);
        let machine = &loaded.machine;
        assert_eq!((machine.end, machine.why, machine.clock), (3, 3, 0), "op {number}");
        // In an upcall that is cause 3.
        let mut upcall = Loaded::of(&dividing_in_upcall(number, 50, 5));
        upcall.steps(2);
        assert_eq!((upcall.machine.pc, upcall.value(15)), (30, 3), "op {number}");
    }
}

/// An image whose divisions have hidden operands: one passes, one fails, one is
/// for register 0. Behind them the clock is read in sight.
fn mixing(dividend: u32, divisor: u32) -> Draft {
    let code = [
        encode_registers(op::DIVIDE, 5, 6, 7, 0),
        encode_registers(op::REMAINDER, 1, 6, 7, 0),
        encode_registers(op::DIVIDE, 0, 6, 7, 0),
        encode_registers(op::REMAINDER, 5, 6, 7, 0),
        encode(op::READ_CLOCK, 2, 0, 0),
        HALT,
    ];
    let mut draft = plain(&code);
    draft.register(1, 240, 9);
    draft.register(5, 255, 1);
    draft.register(6, 255, dividend);
    draft.register(7, 255, divisor);
    draft
}

#[test]
fn a_customers_view_is_as_steady_with_them_as_without() {
    let views = |draft: &Draft| {
        let last = 4 * TICKS + 2;
        (0..=last).map(|tick| fire_for(&draft.text(), Label(240), tick)).collect::<Vec<_>>()
    };
    let first = views(&mixing(1, 1));
    let end = String::from_utf8(first.last().unwrap().clone()).unwrap();
    assert!(end.starts_with("E,1,0,138,5,240,240\nR,1,240,9\nR,2,240,136\nW,0,"), "{end}");
    for (dividend, divisor) in pairs_of_edges() {
        let draft = mixing(dividend, divisor);
        assert_eq!(views(&draft), first);
        let mut loaded = Loaded::of(&draft);
        let certificate = loaded.machine.certify(Label(240), &mut loaded.words, &loaded.labels);
        assert_eq!(certificate, Ok(Certificate::WHOLE));
    }
}
