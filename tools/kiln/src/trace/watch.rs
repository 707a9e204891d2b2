//! What a label sees of a run, tick by tick, as the library lists it. Nothing
//! here may depend on what is out of its sight: of hidden steps neither number
//! nor end shows.

use super::changes;
use super::lines::{self, HIDDEN, NONE};
use super::sight::{Cells, Sight, UNSET};
use crate::library::{flows, Machine, RUNNING, UPCALL};
use std::io::{self, Write};

/// Tells what is seen at each tick by how it differs from the tick before.
pub fn ticks(mut machine: Machine, label: u8, output: &mut impl Write) -> io::Result<()> {
    let limit = machine.limit();
    machine.run_to(0);
    lines::header(output)?;
    let mut watch = Watch::start(label, &machine, output)?;
    while machine.end() == RUNNING {
        let tick = watch.next_tick(&machine).min(limit);
        machine.run_to(tick);
        watch.look(tick, &machine, output)?;
    }
    watch.tell_hidden_ticks(limit + 1, output)
}

struct Watch {
    label: u8,
    /// The state at the last tick that was told, and what is seen of it.
    told: Machine,
    sight: Sight,
    /// The first tick of those not yet told at which the control is hidden.
    hidden_from: Option<u64>,
}

impl Watch {
    /// Tells the state at tick 0.
    fn start(label: u8, state: &Machine, output: &mut impl Write) -> io::Result<Watch> {
        let sight = Sight::of(label, state);
        let control = sight.control.as_ref().map(|control| changes::control(control).join("; "));
        let place = if control.is_some() { NONE } else { HIDDEN };
        lines::line(output, ["0", place, "loaded", control.as_deref().unwrap_or(HIDDEN)])?;
        tell_locations("R", &sight.registers, output)?;
        tell_locations("word ", &sight.words, output)?;
        let hidden_from = sight.control.is_none().then_some(1);
        Ok(Watch { label, told: state.clone(), sight, hidden_from })
    }

    /// The next tick at which something in sight may change: that of the next step.
    /// But out of sight a program changes nothing in sight until it is back: behind
    /// the end tick of its upcall, or by a gate.
    fn next_tick(&self, state: &Machine) -> u64 {
        if self.sight.control.is_some() {
            return state.next_clock();
        }
        match state.calls().last() {
            Some(call) if call.kind == UPCALL => call.end_tick + 1,
            _ if state.gate_count() == 0 => state.limit(),
            _ => state.next_clock(),
        }
    }

    /// Tells the state at a tick. Steps from out of sight show only where the control
    /// comes back.
    fn look(&mut self, tick: u64, state: &Machine, output: &mut impl Write) -> io::Result<()> {
        if self.sight.control.is_none() && !flows(state.pair().pc_label, self.label) {
            return Ok(());
        }
        let sight = self.sight.later(self.label, state, self.told.differing_words(state));
        self.tell_changes(tick, &sight, output)?;
        self.told.clone_from(state);
        self.sight = sight;
        Ok(())
    }

    fn tell_changes(
        &mut self,
        tick: u64,
        sight: &Sight,
        output: &mut impl Write,
    ) -> io::Result<()> {
        let mut changes = changes::between(&self.told, &self.sight, sight);
        if changes.is_empty() {
            let told = changes::passed_by(&self.told).unwrap_or("nothing in sight");
            changes.push(told.to_string());
        }
        self.tell_hidden_ticks(tick, output)?;
        self.hidden_from = sight.control.is_none().then_some(tick + 1);
        match self.sight.control {
            Some(_) => lines::step(output, tick, &self.told, &changes),
            None => lines::line(output, [&tick.to_string(), HIDDEN, HIDDEN, &changes.join("; ")]),
        }
    }

    /// One line for the ticks before this one at which the control is hidden and
    /// nothing in sight changes.
    fn tell_hidden_ticks(&mut self, tick: u64, output: &mut impl Write) -> io::Result<()> {
        let Some(first) = self.hidden_from.take().filter(|first| *first < tick) else {
            return Ok(());
        };
        let last = tick - 1;
        let ticks = if first == last { last.to_string() } else { format!("{first}-{last}") };
        lines::line(output, [&ticks, HIDDEN, "", ""])
    }
}

/// The locations of a kind that have another value or label than one without a
/// line, and those out of sight.
fn tell_locations(kind: &str, cells: &Cells, output: &mut impl Write) -> io::Result<()> {
    for (number, cell) in cells.iter().enumerate().filter(|(_, cell)| **cell != Some(UNSET)) {
        let name = format!("{kind}{number}");
        let seen = cell.map(|cell| changes::location(&name, cell));
        lines::more(output, &seen.unwrap_or(format!("{name}: out of sight")))?;
    }
    Ok(())
}
