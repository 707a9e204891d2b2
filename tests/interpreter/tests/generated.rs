//! Generated images: the generator keeps its word, and what must hold of every
//! run holds of them; and the loops' files are the loops' images.

mod common;

use common::Loaded;
use interpreter::generator::damage::{damage, PLANS};
use interpreter::generator::random::Random;
use interpreter::generator::Generator;
use interpreter::loops::loops;
use interpreter::{load, Pair, Refusal};

#[test]
fn the_same_seed_gives_the_same_images() {
    let images = |seed| {
        let mut generator = Generator::new(seed);
        (0..50).map(|_| generator.next_image()).collect::<Vec<_>>()
    };
    assert_eq!(images(7), images(7));
    assert_ne!(images(7), images(8));
}

#[test]
fn every_fourth_image_is_damaged_and_no_other_has_a_line_for_register_0_or_a_bad_gate() {
    let mut generator = Generator::new(5);
    for number in 1..=1_000 {
        let text = String::from_utf8(generator.next_image()).unwrap();
        let is_good = Loaded::of_text(&text).is_ok();
        assert_eq!(is_good, number % 4 != 0, "{text}");
        assert!(!is_good || !text.contains("\nR,0,"), "{text}");
        assert!(!is_good || gate_pairs(&text).iter().all(|pair| pair.is_valid()), "{text}");
    }
}

/// The pairs of the G lines of a good text.
fn gate_pairs(text: &str) -> Vec<Pair> {
    let gates = text.lines().filter(|line| line.starts_with('G'));
    let label = |field: Option<&str>| field.unwrap().parse().unwrap();
    gates
        .map(|line| {
            let mut fields = line.split(',').skip(2);
            Pair::new(label(fields.next()), label(fields.next()))
        })
        .collect()
}

#[test]
fn three_thousand_images_meet_every_kind() {
    for seed in [1, 2] {
        let mut generator = Generator::new(seed);
        for _ in 0..3_000 {
            generator.next_image();
        }
        assert_eq!(generator.census.unmet(), Vec::<String>::new());
        assert_eq!(generator.census.strange(), Vec::<&str>::new());
    }
}

#[test]
fn damaged_images_get_the_refusal_that_is_due_and_leave_the_memory() {
    let mut random = Random::new(3);
    for _ in 0..50 {
        for plan in PLANS {
            let damaged = damage(&mut random, plan);
            let (mut words, mut labels) = ([7; 2_048], [8; 2_048]);
            let Refusal { number, line } =
                load(&damaged.text, &mut words, &mut labels).unwrap_err();
            let due = damaged.refusal;
            let text = String::from_utf8_lossy(&damaged.text);
            assert_eq!((number, line), (due.number, due.line), "{plan:?}\n{text}");
            assert!(words == [7; 2_048] && labels == [8; 2_048]);
        }
    }
}

#[test]
fn steps_keep_a_record_fit_and_a_run_is_its_steps() {
    let mut generator = Generator::new(4);
    for _ in 0..1_000 {
        let text = String::from_utf8(generator.next_image()).unwrap();
        let Ok(mut stepped) = Loaded::of_text(&text) else {
            continue;
        };
        let mut run = stepped.clone();
        run.run();
        let labels = stepped.labels.clone();
        // A step refuses a record that is not fit, so each try is a proof.
        while stepped.machine.end == 0 && stepped.machine.clock < 2_000 {
            stepped.try_step().unwrap();
        }
        stepped.run();
        assert_eq!(stepped, run);
        assert_eq!(labels, run.labels);
    }
}

#[test]
fn the_loops_files_are_the_loops_images() {
    let files: [&[u8]; 5] = [
        include_bytes!("../../images/loops/arithmetic.txt"),
        include_bytes!("../../images/loops/memory.txt"),
        include_bytes!("../../images/loops/failed-checks.txt"),
        include_bytes!("../../images/loops/multiplies.txt"),
        include_bytes!("../../images/loops/upcalls.txt"),
    ];
    for (case, file) in loops().iter().zip(files) {
        assert_eq!(case.image.text(), file, "{}", case.name);
    }
}

#[test]
fn the_loops_spend_their_clock_and_do_what_their_names_say() {
    for case in loops() {
        let mut image = case.image.clone();
        image.limit = 100_000;
        let mut loaded = Loaded::of(&image);
        let before = loaded.clone();
        loaded.run();
        assert_eq!((loaded.machine.end, loaded.machine.clock), (2, 100_000), "{}", case.name);
        let registers = loaded.machine.registers;
        let unchanged = registers == before.machine.registers && loaded.words == before.words;
        assert_eq!(unchanged, case.name == "failed-checks", "{}", case.name);
        if case.name == "upcalls" {
            assert_eq!(registers[15].value, 1);
        }
    }
}
