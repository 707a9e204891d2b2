//! What differs between what is seen of two states, in words.

use super::lines::HIDDEN;
use super::sight::{Cells, Control, Sight};
use crate::library::{
    Call, Cell, Machine, Pair, CLOCK_SPENT, HALTED, RUNNING, UPCALL, WHY_LABEL, WHY_PC,
    ZERO_REGISTER,
};
use crate::ops;
use std::rc::Rc;

const CHECK_FAILS: &str = "! no effect: the check fails";
const ZERO_REGISTER_STAYS: &str = "! no effect: register 0 never changes";

/// Every change in sight but that of the clock, and of the pc by 1. The machine
/// is the one before.
pub fn between(machine: &Machine, before: &Sight, after: &Sight) -> Vec<String> {
    let mut changes = cells("R", &before.registers, &after.registers);
    if !Rc::ptr_eq(&before.words, &after.words) {
        changes.extend(cells("word ", &before.words, &after.words));
    }
    match (&before.control, &after.control) {
        (Some(before), Some(after)) => changes.extend(control_changes(machine, before, after)),
        (Some(_), None) => changes.push(HIDDEN.to_string()),
        (None, Some(after)) => changes.extend(control(after)),
        (None, None) => {}
    }
    changes
}

/// The changes of locations of a kind.
fn cells(kind: &str, before: &Cells, after: &Cells) -> Vec<String> {
    let both = before.iter().zip(after).enumerate();
    let changed = both.filter(|(_, (before, after))| before != after);
    changed
        .flat_map(|(number, (before, after))| cell(&format!("{kind}{number}"), *before, *after))
        .collect()
}

fn cell(name: &str, before: Option<Cell>, after: Option<Cell>) -> Vec<String> {
    match (before, after) {
        (Some(before), Some(after)) => {
            let label = format!("label of {name} := {}", after.label);
            let label = (before.label != after.label).then_some(label);
            let value = format!("{name} := {}", after.value);
            (before.value != after.value).then_some(value).into_iter().chain(label).collect()
        }
        (None, Some(after)) => vec![format!("{} comes in sight", location(name, after))],
        (Some(_), None) => vec![format!("{name} goes out of sight")],
        (None, None) => Vec::new(),
    }
}

/// A register or a word with its label and value.
pub fn location(name: &str, cell: Cell) -> String {
    format!("{name}: label {}, value {}", cell.label, cell.value)
}

/// The control as it stands: pc, pair, open calls and end.
pub fn control(control: &Control) -> Vec<String> {
    let place = [format!("pc {}", control.pc), pair(control.pair)];
    let calls = control.calls.iter().map(|call| open(*call));
    place.into_iter().chain(calls).chain(end(control)).collect()
}

fn control_changes(machine: &Machine, before: &Control, after: &Control) -> Vec<String> {
    let (old, new) = (&before.calls, &after.calls);
    let mut changes: Vec<String> = Vec::new();
    changes.extend(old.iter().filter(|call| !new.contains(call)).map(|call| closed(*call)));
    let goes_on = changes.is_empty() && machine.why_fetch_fails() == 0 && is_next(before, after);
    let stays = after.end != RUNNING && after.pc == before.pc;
    changes.extend(new.iter().filter(|call| !old.contains(call)).map(|call| open(*call)));
    if before.pair != after.pair {
        changes.push(pair(after.pair));
    }
    if !goes_on && !stays {
        changes.push(format!("to {}", after.pc));
    }
    changes.extend(end(after));
    changes
}

fn is_next(before: &Control, after: &Control) -> bool {
    u64::from(after.pc) == u64::from(before.pc) + 1
}

fn pair(pair: Pair) -> String {
    format!("pair {} {}", pair.pc_label, pair.timing_label)
}

fn open(call: Call) -> String {
    let back = format!("back to {} with {}", call.return_pc, pair(call.pair));
    match call.kind {
        UPCALL => format!("upcall open to tick {}, then {back}", call.end_tick),
        _ => format!("gate call open, then {back}"),
    }
}

fn closed(call: Call) -> String {
    let kind = if call.kind == UPCALL { "upcall" } else { "gate call" };
    format!("{kind} closed")
}

fn end(control: &Control) -> Option<String> {
    let why = match control.why {
        WHY_PC => "the pc is not below the size",
        WHY_LABEL => "the word's label doesn't flow to the pc label",
        _ => "the op is unknown",
    };
    match control.end {
        RUNNING => None,
        HALTED => Some("halted".to_string()),
        CLOCK_SPENT => Some("clock spent".to_string()),
        _ => Some(format!("stalled: {why}")),
    }
}

/// What is told of a step that changes nothing but pc and clock.
pub fn without_effect(before: &Machine) -> &'static str {
    match passed_by(before) {
        Some(told) => told,
        None if before.writes() => "the same value",
        None if before.writes_under_highest_labels() => CHECK_FAILS,
        None => "! no effect",
    }
}

/// What is told of a branch or jump that doesn't go, and of an op that would
/// change register 0; nothing of other ops. The labels that a branch's check
/// reads flow to the pc label or it fails, and the word does since it was
/// fetched, so whoever sees the control may know.
pub fn passed_by(before: &Machine) -> Option<&'static str> {
    let word = before.word(before.pc() as usize).value;
    match ops::target(word) {
        _ if before.fails_in_an_upcall() => Some(CHECK_FAILS),
        _ if ops::destination(word) == Some(ZERO_REGISTER) => Some(ZERO_REGISTER_STAYS),
        None => None,
        Some(place) if place == before.pc() + 1 => Some("to the next word in either case"),
        Some(_) => Some("not taken"),
    }
}
