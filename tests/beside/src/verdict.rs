//! How each program closes: its counts on the last line, and its exit status.

use std::env;
use std::process::{exit, ExitCode};

/// A difference was found.
const DIFFERENCE: u8 = 1;

/// No difference was found, but something was not tried.
const UNMET: u8 = 2;

/// With this in its environment a program ends at the first difference.
const ONE_IS_ENOUGH: &str = "ONE_IS_ENOUGH";

/// What follows a difference that was counted and shown: the next trial, unless
/// one is enough.
pub fn behind_difference() {
    if env::var_os(ONE_IS_ENOUGH).is_some() {
        exit(DIFFERENCE.into());
    }
}

/// Prints the last line. A kind that was never met is a failure of its own.
pub fn close(passed: u64, differences: u64, unmet: usize) -> ExitCode {
    println!("{passed} passed, {} failed", differences + unmet as u64);
    match (differences, unmet) {
        (0, 0) => ExitCode::SUCCESS,
        (0, _) => ExitCode::from(UNMET),
        _ => ExitCode::from(DIFFERENCE),
    }
}
