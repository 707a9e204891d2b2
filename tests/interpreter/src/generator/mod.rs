//! The image generator: valid images biased towards what is rare, and damaged
//! ones for each refusal and each order between two; texts, and images from HEX.

pub mod census;
pub mod compose;
pub mod damage;
pub mod division;
pub mod faults;
pub mod hex;
pub mod labels;
pub mod multiply;
mod on_zero;
pub mod random;
mod start;
pub mod watch;
mod words;

use census::Census;
use compose::compose;
use damage::{damage, PLANS};
use random::Random;
use watch::watch;

/// One image in this many is damaged.
const DAMAGED_EVERY: u64 = 4;

/// A source of images; the same seed gives the same images in the same order.
pub struct Generator {
    random: Random,
    made: u64,
    /// What running the images has met so far; it steers what is made next.
    pub census: Census,
}

impl Generator {
    pub fn new(seed: u64) -> Generator {
        Generator { random: Random::new(seed), made: 0, census: Census::new() }
    }

    /// The text of the next image. It is run once, so that the census knows it.
    pub fn next_image(&mut self) -> Vec<u8> {
        self.made += 1;
        let text = if self.made.is_multiple_of(DAMAGED_EVERY) {
            // The plans take turns, so that all come up.
            let plan = PLANS[(self.made / DAMAGED_EVERY) as usize % PLANS.len()];
            let damaged = damage(&mut self.random, plan);
            self.census.count_damage(&damaged.names);
            damaged.text
        } else {
            compose(&mut self.random, &self.census).text()
        };
        let mut seen = Census::new();
        watch(&mut seen, &text);
        self.census.add_image(&seen);
        text
    }
}
