//! A program that tries pairs: the words that it is started with, whose calls it
//! makes, and what came of the pairs.

use crate::calls::Calls;
use crate::library::Library;
use crate::other::Other;
use crate::tally::Tally;
use crate::trials::Trials;
use crate::verdict::behind_difference;
use interpreter::generator::random::Random;
use std::env;

/// Pairs that fail are shown up to this number.
const SHOWN: u64 = 3;

/// The program's words: `[SEED [COUNT [library|interpreter]]]`.
pub struct Words {
    seed: u64,
    count: Option<u64>,
    pub is_library: bool,
}

impl Words {
    pub fn read() -> Words {
        let words: Vec<String> = env::args().skip(1).collect();
        let number = |at: usize| words.get(at).and_then(|word| word.parse().ok());
        let is_library = words.get(2).is_none_or(|word| word != "interpreter");
        Words { seed: number(0).unwrap_or(1), count: number(1), is_library }
    }

    /// How many pairs are to be tried: so many where the words don't say it.
    pub fn count(&self, usual: u64) -> u64 {
        self.count.unwrap_or(usual)
    }
}

/// The trial of all pairs.
pub struct Trial {
    pub calls: &'static dyn Calls,
    pub random: Random,
    pub trials: Trials,
}

impl Trial {
    /// A trial in which these names must come up.
    pub fn expecting(words: &Words, names: Vec<String>) -> Trial {
        let calls: &dyn Calls = if words.is_library { &Library } else { &Other };
        let random = Random::new(words.seed);
        Trial { calls, random, trials: Trials::new(Tally::expecting(names)) }
    }

    /// Counts what came of a pair, and shows it where it failed.
    pub fn judge(&mut self, outcome: Result<(), String>, show: impl FnOnce(&str)) {
        match outcome {
            Ok(()) => self.trials.passed += 1,
            Err(what) => {
                self.trials.failed += 1;
                if self.trials.failed <= SHOWN {
                    show(&what);
                }
                behind_difference();
            }
        }
    }
}
