//! The stories.

mod calls;
mod far;
mod files;
mod images;
mod moves;
mod numbers;
mod runs;
mod start;
mod trials;
mod wild;

use crate::pair::{Difference, Pair};
use crate::random::Random;
use crate::teller::{Teller, Told};
use filing::telling::{history, mode::Mode};

type Story = fn(&mut Teller) -> Told;

/// The kinds of stories, told in turn.
pub const KINDS: [(&str, Story); 2] =
    [("told by second's own generator", Teller::told_by_second), ("wild", Teller::wild)];

/// Tells the story of this number; delivers what was said, and the difference if there was one.
pub fn tell(seed: u64, number: u64, apart: bool) -> (Pair, Option<Difference>) {
    let random = Random::new(seed.wrapping_mul(1_000_003).wrapping_add(number));
    let mut teller = Teller { pair: Pair::new(apart), random, sense: 100 };
    let (_, story) = KINDS[number as usize % KINDS.len()];
    let difference = story(&mut teller).err();
    (teller.pair, difference)
}

impl Teller {
    fn told_by_second(&mut self) -> Told {
        let (_, mode) = self.random.one_of(&Mode::ALL);
        for line in history(self.random.any(), 1_500, mode) {
            self.say(line)?;
        }
        Ok(())
    }
}
