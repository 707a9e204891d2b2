//! Whether standard input and output were open when the program began. Before
//! `main`, Rust opens /dev/null where one of them is closed, and what is written
//! there is lost without a word. So this is asked before Rust begins.

#![allow(unsafe_code)]

use std::sync::atomic::{AtomicBool, Ordering};

const INPUT: i32 = 0;
const OUTPUT: i32 = 1;
/// fcntl's command that asks for a descriptor's flags; it fails where none is open.
const GET_FLAGS: i32 = 1;

static INPUT_IS_CLOSED: AtomicBool = AtomicBool::new(false);
static OUTPUT_IS_CLOSED: AtomicBool = AtomicBool::new(false);

extern "C" {
    fn fcntl(descriptor: i32, command: i32, ...) -> i32;
}

/// Functions of this section run before the program's start.
#[used]
#[link_section = ".init_array"]
static BEFORE_MAIN: extern "C" fn() = look;

extern "C" fn look() {
    INPUT_IS_CLOSED.store(is_closed(INPUT), Ordering::Relaxed);
    OUTPUT_IS_CLOSED.store(is_closed(OUTPUT), Ordering::Relaxed);
}

fn is_closed(descriptor: i32) -> bool {
    // The call reads a flag of the process and touches no memory of ours.
    unsafe { fcntl(descriptor, GET_FLAGS) < 0 }
}

pub fn input_is_closed() -> bool {
    INPUT_IS_CLOSED.load(Ordering::Relaxed)
}

pub fn output_is_closed() -> bool {
    OUTPUT_IS_CLOSED.load(Ordering::Relaxed)
}
