//! Where the library and the interpreter part on one image: the load, the first
//! step, or the print.

use crate::buffers::Lent;
use crate::calls::Calls;
use crate::layout::{at, read};
use crate::library::Library;
use crate::other::Other;

/// The library and the interpreter on the same image.
struct Both {
    ours: Lent,
    theirs: Lent,
}

impl Both {
    /// Makes a call of both; tells what differs afterwards, if something does.
    fn call(&mut self, make: impl Fn(&dyn Calls, &mut Lent) -> u64) -> Result<u64, String> {
        let answers = (make(&Library, &mut self.ours), make(&Other, &mut self.theirs));
        if answers.0 != answers.1 {
            return Err(format!(
                "the library answers {}, the interpreter {}",
                answers.0, answers.1
            ));
        }
        match self.ours.difference(&self.theirs) {
            Some(what) => Err(format!("library and interpreter leave another {what}")),
            None => Ok(answers.0),
        }
    }

    fn is_running(&self) -> bool {
        self.ours.record.get()[at::END] == 0
    }

    /// Where the record stands before a step.
    fn place(&self) -> String {
        let Some(machine) = read(self.ours.record.get()) else {
            return "no record".to_string();
        };
        let (pc, clock) = (machine.pc, machine.clock);
        let word = self.ours.words.get().get(pc as usize).copied().unwrap_or(0);
        let (op, shape) = (word >> 24, (machine.first, machine.second));
        format!("clock {clock}, pc {pc}, word {word} (op {op}), calls {shape:?}")
    }
}

/// The first call at which the two part, told in words.
pub fn first_parting(text: &[u8]) -> String {
    let mut both = Both { ours: Lent::whole(), theirs: Lent::whole() };
    match both.call(|calls, lent| lent.load(calls, text)) {
        Err(what) => return format!("they part at the load: {what}"),
        Ok(0) => {}
        Ok(answer) => return format!("library and interpreter refuse it alike, {answer}"),
    }
    let mut steps = 0;
    while both.is_running() {
        steps += 1;
        let place = both.place();
        if let Err(what) = both.call(|calls, lent| lent.step(calls)) {
            return format!("they part at step {steps}, from {place}\n{what}");
        }
    }
    match both.call(|calls, lent| lent.print(calls)) {
        Err(what) => format!("they part at the print, after {steps} steps: {what}"),
        Ok(_) => "library and interpreter don't part: it is the program's own".to_string(),
    }
}
