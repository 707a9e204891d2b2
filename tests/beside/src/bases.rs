//! Fit records with their memory, from which the trials start: states in the
//! middle of the runs of generated images.

use interpreter::generator::census::Census;
use interpreter::generator::compose::compose;
use interpreter::generator::random::Random;
use interpreter::Machine;

/// A run called on a record that was changed must end soon.
pub const LONGEST: u64 = 2_000;

/// A fit record with just its memory.
#[derive(Clone, Debug)]
pub struct Base {
    pub machine: Machine,
    pub words: Vec<u32>,
    pub labels: Vec<u8>,
}

impl Base {
    /// Loads a generated image and does some of its steps.
    pub fn make(random: &mut Random) -> Base {
        let draft = compose(random, &Census::new());
        let (mut machine, mut words, labels) = draft.loaded();
        machine.limit = machine.limit.min(LONGEST);
        let steps = random.pick(&[0, 3, 10, 30, 100, 1_000]);
        for _ in 0..random.between(0, steps) {
            machine.step(&mut words, &labels).expect("a loaded record stays fit");
        }
        Base { machine, words, labels }
    }

    /// Memory for a record whose size was changed: cut, or grown at random, and
    /// never beyond what a size out of range could want.
    pub fn fit_memory(&mut self, random: &mut Random) {
        let size = self.machine.size.min(2_060) as usize;
        self.words.resize(size, random.bits());
        self.labels.resize(size, random.bits() as u8);
    }
}
