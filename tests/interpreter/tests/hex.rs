//! Images from Intel HEX: what is accepted, what the bytes form, and the order of
//! the refusals. The sums are worked out by hand.

use interpreter::{fire, fire_hex, load_hex, Label, Refusal};
use std::fs::{self, File};
use std::path::Path;
use std::process::{Command, Output};

const M: &str = "M,8,7,0,240,240,100\n";
const END: &str = ":00000001FF\n";

/// The four bytes 1, 2, 3, 4 from address 8 on: 4 + 8 + 10 = 22, and 234 is EA.
const WORD_2: &str = ":0400080001020304EA\n";

/// Byte 31, the last one of eight words: 1 + 31 + 7 = 39, and 217 is D9.
const LAST: &str = ":01001F0007D9\n";

/// Byte 32, the first one behind them: 1 + 32 + 7 = 40, and 216 is D8.
const BEHIND: &str = ":0100200007D8\n";

/// What was in the memory before.
const WORD: u32 = 7;
const LABEL: u8 = 8;

const ACCEPTED: (u8, u64) = (0, 0);

/// The refusal of both texts, as number and line; it must leave the memory.
fn refusal_of(text: &str, hex: &[u8]) -> (u8, u64) {
    let (mut words, mut labels) = ([WORD; 2_048], [LABEL; 2_048]);
    match load_hex(text.as_bytes(), hex, Label(240), &mut words, &mut labels) {
        Ok(_) => ACCEPTED,
        Err(Refusal { number, line }) => {
            assert!(words == [WORD; 2_048] && labels == [LABEL; 2_048]);
            (number, line)
        }
    }
}

/// The refusal of records behind a good M text.
fn refusal(hex: &str) -> (u8, u64) {
    refusal_of(M, hex.as_bytes())
}

/// The refusal of a line with the end behind it.
fn refusal_before_end(line: &str) -> (u8, u64) {
    refusal(&format!("{line}{END}"))
}

/// The words and labels below the size that records give with a label.
fn memory(hex: &str, label: u8) -> (Vec<u32>, Vec<u8>) {
    let (mut words, mut labels) = (vec![WORD; 10], vec![LABEL; 10]);
    load_hex(M.as_bytes(), hex.as_bytes(), Label(label), &mut words, &mut labels).unwrap();
    assert_eq!((&words[8..], &labels[8..]), (&[WORD; 2][..], &[LABEL; 2][..]));
    (words[..8].to_vec(), labels[..8].to_vec())
}

/// A record of these bytes behind the colon, with the check byte that they need.
fn record(bytes: &[u8]) -> String {
    let sum: u32 = bytes.iter().map(|&byte| u32::from(byte)).sum();
    let check = (256 - sum % 256) % 256;
    let digits: String = bytes.iter().map(|byte| format!("{byte:02X}")).collect();
    format!(":{digits}{check:02X}\n")
}

#[test]
fn the_sums_worked_out_by_hand_are_right() {
    assert_eq!(record(&[0, 0, 0, 1]), END);
    assert_eq!(record(&[4, 0, 8, 0, 1, 2, 3, 4]), WORD_2);
    assert_eq!(record(&[1, 0, 31, 0, 7]), LAST);
    assert_eq!(record(&[1, 0, 32, 0, 7]), BEHIND);
}

#[test]
fn the_end_alone_leaves_every_word_at_value_0_and_the_lowest_label() {
    assert_eq!(memory(END, 255), (vec![0; 8], vec![240; 8]));
}

#[test]
fn bytes_form_words_with_the_lowest_byte_first_and_the_label_on_them_alone() {
    let (words, labels) = memory(&format!("{WORD_2}{END}"), 18);
    assert_eq!(words, [0, 0, 0x0403_0201, 0, 0, 0, 0, 0]);
    assert_eq!(labels, [240, 240, 18, 240, 240, 240, 240, 240]);
}

#[test]
fn missing_bytes_are_0_whatever_memory_held_and_a_byte_of_0_has_the_label_too() {
    let second = record(&[1, 0, 1, 0, 0xAB]);
    let zero = record(&[1, 0, 23, 0, 0]);
    let (words, labels) = memory(&format!("{second}{zero}{LAST}{END}"), 15);
    assert_eq!(words, [0xAB00, 0, 0, 0, 0, 0, 0, 7 << 24]);
    assert_eq!(labels, [15, 240, 240, 240, 240, 15, 240, 15]);
}

#[test]
fn bytes_come_in_any_order_and_across_words() {
    let across = record(&[3, 0, 6, 0, 6, 7, 8]);
    let before = record(&[2, 0, 4, 0, 4, 5]);
    let (words, labels) = memory(&format!("{across}{before}{END}"), 0);
    assert_eq!(words[..4], [0, 0x0706_0504, 8, 0]);
    assert_eq!(labels[..4], [240, 0, 0, 240]);
}

#[test]
fn digits_are_of_either_case_and_lines_end_in_lf_or_cr_lf() {
    let lower = record(&[2, 0, 0, 0, 0xab, 0xcd]).to_lowercase();
    let mixed = record(&[2, 0, 2, 0, 0xab, 0xcd]).replace('A', "a");
    let hex = format!("{lower}{mixed}:00000001fF\n");
    for ends in [hex.clone(), hex.replace('\n', "\r\n"), hex.replacen('\n', "\r\n", 1)] {
        assert_eq!(memory(&ends, 240).0[..2], [0xcdab_cdab, 0]);
    }
}

#[test]
fn a_record_of_every_length_is_taken() {
    for length in 0..=255 {
        let data: Vec<u8> = (0..length).map(|byte: u8| byte ^ 0x5a).collect();
        let hex = record(&[&[length, 0, 1, 0], &data[..]].concat()) + END;
        let (mut words, mut labels) = (vec![WORD; 64], vec![LABEL; 64]);
        let text = b"M,64,7,0,240,240,100\n";
        load_hex(text, hex.as_bytes(), Label(3), &mut words, &mut labels).unwrap();
        let bytes: Vec<u8> = words.iter().flat_map(|word| word.to_le_bytes()).collect();
        assert_eq!(bytes, [&[0], &data[..], &vec![0; 255 - data.len()]].concat());
    }
}

#[test]
fn a_record_of_length_0_is_taken_at_any_address_and_gives_no_byte() {
    for address in [[0, 0], [0, 32], [0xff, 0xff]] {
        let empty = record(&[0, address[0], address[1], 0]);
        assert_eq!(memory(&format!("{empty}{empty}{END}"), 255), (vec![0; 8], vec![240; 8]));
    }
}

#[test]
fn the_address_of_the_end_is_not_read() {
    for address in [[0, 1], [0, 32], [0x12, 0x34], [0xff, 0xff]] {
        assert_eq!(refusal(&record(&[0, address[0], address[1], 1])), ACCEPTED);
    }
}

#[test]
fn a_label_need_not_be_sound() {
    for label in 0..=255 {
        assert_eq!(memory(&format!("{WORD_2}{END}"), label).1[2], label);
    }
}

#[test]
fn a_line_of_wrong_form_is_11() {
    let lines = [
        ";0400080001020304EA\n",
        "0400080001020304EA\n",
        " :0400080001020304EA\n",
        "::0400080001020304EA\n",
        ":0400080001020304EA \n",
        ":04 00080001020304EA\n",
        ":04\t00080001020304EA\n",
        ":0400080001020304E\n",
        ":0400080001020304EA0\n",
        ":0400080001020304EG\n",
        ":0400080001020304e@\n",
        ":0400080001020304E/\n",
        ":0400080001020304E:\n",
        ":0400080001020304E`\n",
        ":0400080001020304eg\n",
        ":+4+0+8+0+1+2+3+4EA\n",
        ":0x00080001020304EA\n",
        ":0400080001020304EA\r\r\n",
        ":0400080001020304EA\r",
        ":0400\r080001020304EA\n",
        ":\r0400080001020304EA\n",
        "\r:0400080001020304EA\n",
        "\n",
        "\r\n",
        ":\n",
        ":\r\n",
        ":00\n",
        ":000000\n",
        ":00000000",
        ":0000000000:0000000000\n",
        "S1070008000102030AE6\n",
    ];
    for line in lines {
        assert_eq!(refusal_before_end(line), (11, 1), "{line:?}");
        let behind = format!("{LAST}{line}{END}");
        assert_eq!(refusal(&behind), (11, 2), "{line:?}");
    }
    assert_eq!(refusal_of(M, b":0400080001020304E\xb0\n:00000001FF\n"), (11, 1));
}

#[test]
fn more_or_fewer_bytes_than_the_length_says_are_11_though_the_sum_is_right() {
    for length in [0, 1, 3, 5, 255] {
        assert_eq!(refusal_before_end(&record(&[length, 0, 8, 0, 1, 2, 3, 4])), (11, 1));
    }
    assert_eq!(refusal_before_end(&record(&[0, 0, 0])), (11, 1));
    assert_eq!(refusal_before_end(&record(&[])), (11, 1));
}

#[test]
fn a_wrong_sum_is_11_whatever_it_is() {
    for check in (0..=255).filter(|&check| check != 0xEA) {
        let line = format!(":0400080001020304{check:02X}\n");
        assert_eq!(refusal_before_end(&line), (11, 1), "{line}");
        let end = format!(":00000001{:02X}\n", check ^ 0xEA ^ 0xFF);
        assert_eq!(refusal(&end), (11, 1), "{end}");
    }
}

#[test]
fn a_type_above_01_is_11_and_so_is_an_end_with_bytes() {
    for kind in 2..=255 {
        assert_eq!(refusal_before_end(&record(&[0, 0, 0, kind])), (11, 1));
        assert_eq!(refusal_before_end(&record(&[2, 0, 0, kind, 0, 0])), (11, 1));
    }
    assert_eq!(refusal(&record(&[1, 0, 0, 1, 0])), (11, 1));
    assert_eq!(refusal_before_end(&record(&[1, 0, 0, 1, 0])), (11, 1));
}

#[test]
fn a_line_without_lf_is_11_also_the_last() {
    for end in [":00000001FF", ":00000001FF\r", ":", "x"] {
        assert_eq!(refusal(end), (11, 1));
        assert_eq!(refusal(&format!("{WORD_2}{end}")), (11, 2));
    }
}

#[test]
fn where_the_end_is_missing_the_line_is_the_one_after_the_last() {
    assert_eq!(refusal(""), (11, 1));
    assert_eq!(refusal(WORD_2), (11, 2));
    assert_eq!(refusal(&format!("{WORD_2}{LAST}")), (11, 3));
}

#[test]
fn anything_behind_the_end_is_11_at_the_line_after_it() {
    for behind in [END, WORD_2, BEHIND, "\n", "\r\n", " ", "\u{1a}", "x", ":00000001FF"] {
        assert_eq!(refusal(&format!("{END}{behind}")), (11, 2), "{behind:?}");
        assert_eq!(refusal(&format!("{WORD_2}{END}{behind}{behind}")), (11, 3), "{behind:?}");
    }
}

#[test]
fn a_byte_outside_memory_is_12_and_the_last_one_within_is_taken() {
    assert_eq!(refusal_before_end(LAST), ACCEPTED);
    assert_eq!(refusal_before_end(BEHIND), (12, 1));
    // Two bytes, of which the second is behind the last.
    assert_eq!(refusal_before_end(&record(&[2, 0, 31, 0, 0, 0])), (12, 1));
    assert_eq!(refusal_before_end(&record(&[1, 0xff, 0xff, 0, 0])), (12, 1));
}

#[test]
fn an_address_does_not_wrap_at_65_536() {
    assert_eq!(refusal_before_end(&record(&[2, 0xff, 0xff, 0, 0, 0])), (12, 1));
    let long = [&[255, 0xff, 0xf0, 0], &[0; 255][..]].concat();
    assert_eq!(refusal_before_end(&record(&long)), (12, 1));
}

#[test]
fn a_byte_given_twice_is_12_at_the_second_line_even_with_the_same_value() {
    let again = record(&[1, 0, 9, 0, 2]);
    let other = record(&[1, 0, 9, 0, 3]);
    for later in [WORD_2, &again, &other] {
        assert_eq!(refusal(&format!("{WORD_2}{LAST}{later}{END}")), (12, 3), "{later}");
    }
    let across = record(&[8, 0, 4, 0, 0, 0, 0, 0, 0, 0, 0, 0]);
    assert_eq!(refusal(&format!("{WORD_2}{across}{END}")), (12, 2));
}

#[test]
fn eleven_comes_before_12_on_one_line() {
    let lines = [
        ":0100200007D9\n".to_string(),
        ":0100200007D8 \n".to_string(),
        ":0100200007D80\n".to_string(),
        ":0100200007D8".to_string(),
        record(&[2, 0, 32, 0, 7]),
        record(&[1, 0, 32, 2, 7]),
        record(&[1, 0, 32, 1, 7]),
    ];
    for line in lines {
        assert_eq!(refusal(&line), (11, 1), "{line:?}");
    }
    assert_eq!(refusal(&format!("{WORD_2}:0400080001020304EB\n{END}")), (11, 2));
}

#[test]
fn an_earlier_line_comes_before_a_later_one() {
    assert_eq!(refusal(&format!("{BEHIND}x\n{END}")), (12, 1));
    assert_eq!(refusal(&format!("x\n{BEHIND}{END}")), (11, 1));
    assert_eq!(refusal(BEHIND), (12, 1));
    assert_eq!(refusal(&format!("{BEHIND}{END}{END}")), (12, 1));
    assert_eq!(refusal(&format!("{END}{BEHIND}")), (11, 2));
    assert_eq!(refusal(&format!("{BEHIND}{LAST}{LAST}{END}")), (12, 1));
}

#[test]
fn the_m_text_is_tried_first() {
    let texts = [
        ("", (1, 0)),
        ("M,8,7,0,240,240,100", (2, 1)),
        ("W,0,240,1\n", (2, 1)),
        ("M,0,7,0,255,240,100\n", (3, 1)),
        ("M,8,7,0,255,240,100\nx", (5, 1)),
        ("M,2049,7,0,240,240,100\nx", (3, 1)),
    ];
    for (text, due) in texts {
        for hex in ["", "x", BEHIND, END] {
            assert_eq!(refusal_of(text, hex.as_bytes()), due, "{text:?} {hex:?}");
        }
    }
    let long = "9".repeat(65_536);
    assert_eq!(refusal_of(&long, END.as_bytes()), (1, 0));
    assert_eq!(refusal_of(&long[1..], END.as_bytes()), (2, 1));
}

#[test]
fn any_second_line_of_the_m_text_is_4() {
    for second in ["\n", "x", "R,0,240,0\n", "R,1,240,0\n", "W,0,240,1\n", "M,8\n", M, "\r\n", ","]
    {
        for hex in ["", "x", BEHIND, END] {
            let text = format!("{M}{second}");
            assert_eq!(refusal_of(&text, hex.as_bytes()), (4, 2), "{second:?} {hex:?}");
        }
    }
    let long = format!("{M}{}", "9".repeat(65_535 - M.len()));
    assert_eq!(refusal_of(&long, END.as_bytes()), (4, 2));
}

#[test]
fn short_memory_is_6_before_a_second_line_and_before_the_records() {
    for (words, labels) in [(7, 8), (8, 7), (0, 0)] {
        for (second, hex) in [("", END), ("x", END), ("", "x"), ("", BEHIND)] {
            let (mut words, mut labels) = (vec![WORD; words], vec![LABEL; labels]);
            let text = format!("{M}{second}");
            let (text, hex) = (text.as_bytes(), hex.as_bytes());
            let refused = load_hex(text, hex, Label(240), &mut words, &mut labels);
            assert_eq!(refused, Err(Refusal { number: 6, line: 1 }));
        }
    }
}

#[test]
fn a_line_above_65_535_has_its_own_number() {
    let empty = record(&[0, 0, 0, 0]);
    let many = empty.repeat(70_000);
    assert_eq!(refusal(&format!("{many}{END}")), ACCEPTED);
    assert_eq!(refusal(&many), (11, 70_001));
    assert_eq!(refusal(&format!("{many}{BEHIND}{END}")), (12, 70_001));
    assert_eq!(refusal(&format!("{many}{END}x")), (11, 70_002));
}

/// Document 01's sample, its words as bytes: 17825797 is 01100005, 34672640 is
/// 02111000 and 369098752 is 16000000.
#[test]
fn the_sample_from_hex_is_fired_as_its_text_is() {
    let words = "W,0,240,17825797\nW,1,240,34672640\nW,2,240,369098752\n";
    let hex = record(&[12, 0, 0, 0, 5, 0, 0x10, 1, 0, 0x10, 0x11, 2, 0, 0, 0, 0x16]) + END;
    let fired = fire_hex(M.as_bytes(), hex.as_bytes(), Label(240));
    let text = format!("{M}{words}");
    assert_eq!(fired, fire(text.as_bytes()));
    let listing = format!("E,1,0,3,2,240,240\nR,1,240,10\n{words}");
    assert_eq!(String::from_utf8(fired).unwrap(), listing);
    assert_eq!(fire_hex(M.as_bytes(), b":00000001FE\n", Label(240)), b"X,11,1\n");
}

/// What the program does with these arguments and HEX of `tests/hex`, in whose
/// folder it runs.
fn program(arguments: &[&str], hex: &str) -> Output {
    let folder = Path::new(env!("CARGO_MANIFEST_DIR")).join("../hex/data");
    let input = File::open(folder.join(hex)).unwrap();
    let mut command = Command::new(env!("CARGO_BIN_EXE_hexfiring_rs"));
    command.args(arguments).current_dir(folder).stdin(input).output().unwrap()
}

#[test]
fn the_program_prints_the_stored_listings() {
    let stored = Path::new(env!("CARGO_MANIFEST_DIR")).join("../hex/stdout");
    let stored = fs::read_to_string(stored).unwrap();
    let cases: Vec<&str> = stored.split("= ").skip(1).collect();
    assert!(!cases.is_empty());
    for (head, listing) in cases.iter().map(|case| case.split_once('\n').unwrap()) {
        let words: Vec<&str> = head.split(' ').collect();
        let output = program(&words[1..], words[0]);
        assert_eq!(String::from_utf8_lossy(&output.stdout), listing, "{head}");
    }
}

#[test]
fn the_program_prints_nothing_without_a_label_and_a_file() {
    let text = "eight.txt";
    let wrong: [&[&str]; 5] = [&[], &["240"], &["256", text], &["240", text, text], &["0", "none"]];
    for arguments in wrong {
        let Output { status, stdout, stderr } = program(arguments, "sample.hex");
        assert!(!status.success() && stdout.is_empty() && !stderr.is_empty());
    }
}
