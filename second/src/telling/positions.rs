//! Positions worth a visit: near the greatest end, near the one that was the greatest before, and where counts of fewer bits
//! would begin again.

use super::teller::Teller;
use crate::rules::sizes::GREATEST_END;
use crate::rules::species::Species;

/// Document 01's limit, which document 02 raises: nothing is refused there any more but a move to the old form.
pub const OLD_GREATEST_END: u32 = 16_777_215;

/// So many stretches of whole cells there were below it; as numbers of 18 bits, stretches so far apart are alike.
pub const OLD_STRETCHES: u32 = 262_144;

/// The last stretch that a file of this species can hold.
pub fn top_stretch(species: Species) -> u32 {
    species.stretch_of(GREATEST_END - 1)
}

/// The first position of a stretch that a file of this species can hold.
pub fn first_position(species: Species, stretch: u32) -> u32 {
    stretch * species.elements_in_a_segment() + 1
}

/// A position so far on; the greatest end, which is the greatest number of a cell, where that would lie beyond it.
pub fn further_on(position: u32, count: u32) -> u32 {
    position.saturating_add(count)
}

/// The bounds of a file that has elements, put elsewhere so that they hold as many stretches and end there. So many stretches
/// must lie below.
pub fn bounds_ending_at(species: Species, begin: u32, end: u32, new_end: u32) -> (u32, u32) {
    let stretches_up_to_the_last = species.stretch_of(end - 1) - species.stretch_of(begin);
    let first_stretch = species.stretch_of(new_end - 1) - stretches_up_to_the_last;
    let new_begin = further_on(first_position(species, first_stretch), species.offset_of(begin));
    // In one single stretch the begin may have come out after the end.
    (new_begin.min(new_end - 1), new_end)
}

/// They are put up by whole stretches until the last one is the top one; there the end is at most the greatest.
pub fn lifted(species: Species, begin: u32, end: u32) -> (u32, u32) {
    let top = first_position(species, top_stretch(species));
    bounds_ending_at(species, begin, end, further_on(top, species.offset_of(end - 1) + 1))
}

/// They are put down by whole stretches until the first one is the lowest there is.
pub fn lowered(species: Species, begin: u32, end: u32) -> (u32, u32) {
    let down = first_position(species, species.stretch_of(begin)) - 1;
    (begin - down, end - down)
}

impl Teller {
    pub fn a_position_near_the_end(&mut self) -> u32 {
        GREATEST_END - self.random.pick(&[0, 0, 1, 1, 2, 2, 3, 5, 20])
    }

    /// Mostly near the greatest end.
    pub fn a_far_position(&mut self) -> u32 {
        let few = self.random.below(5);
        match self.random.weighted(&[55, 25, 20]) {
            0 => self.a_position_near_the_end(),
            1 => OLD_GREATEST_END + 1 - few,
            _ => (1 << self.random.between(24, 31)) + 1 - few,
        }
    }

    /// A stretch about the border of what there was before, or of what there is.
    pub fn a_far_stretch(&mut self, species: Species) -> u32 {
        let top = top_stretch(species);
        let stretch = match self.random.below(4) {
            0 => OLD_GREATEST_END / species.elements_in_a_segment() + self.random.below(2),
            1 => OLD_STRETCHES * self.random.between(1, 3) - self.random.below(2),
            2 => 1 << self.random.between(10, 25),
            _ => top - self.random.below(2),
        };
        stretch.min(top)
    }

    /// Any position, begin or end that a cell can hold, most of them where something may be judged wrongly.
    pub fn a_trial_position(&mut self, now: u32) -> u32 {
        let near = now.wrapping_add(self.random.pick(&[1, u32::MAX, 64, 2048]));
        let as_far_on = now.wrapping_add(1 << self.random.between(16, 31));
        let far = self.a_far_position();
        self.random.pick(&[near, near, near, 0, 1, 2, far, as_far_on, GREATEST_END - 1, GREATEST_END])
    }
}

#[cfg(test)]
mod tests {
    use super::*;
    use crate::rules::species::SPECIES;
    use crate::telling::mode::Mode;

    #[test]
    fn the_last_stretches() {
        let tops = [2_097_151, 4_194_303, 8_388_607, 16_777_215, 33_554_431, 67_108_863, 33_554_431];
        for (number, top) in tops.into_iter().enumerate() {
            let species = Species::from_number(number as u32).expect("0 to 6");
            assert_eq!(top_stretch(species), top);
            assert_eq!(species.stretch_of(first_position(species, top)), top);
            assert_eq!(species.offset_of(first_position(species, top)), 0);
        }
    }

    #[test]
    fn bounds_elsewhere_hold_as_many_stretches() {
        for (number, begin, end) in [(5, 1, 2), (5, 64, 66), (5, 64, 65), (0, 2048, 2050), (6, 1, 129), (3, 200, 300)] {
            let species = Species::from_number(number).expect("0 to 6");
            let held = |(begin, end)| species.held_stretches(begin, end);
            let here = held((begin, end)).len() as u32;
            assert_eq!(held(lifted(species, begin, end)).len() as u32, here);
            assert_eq!(held(lifted(species, begin, end)).end, top_stretch(species) + 1);
            assert_eq!(held(lowered(species, begin, end)), 0..here);
            for new_end in OLD_GREATEST_END - 1..OLD_GREATEST_END + 4 {
                let bounds = bounds_ending_at(species, begin, end, new_end);
                assert_eq!((held(bounds).len() as u32, bounds.1), (here, new_end));
            }
        }
    }

    #[test]
    fn far_stretches_can_be_held() {
        let mut teller = Teller::new(1, Mode::Mixed);
        for number in 0..SPECIES as u32 {
            let species = Species::from_number(number).expect("0 to 6");
            let stretches: Vec<u32> = (0..500).map(|_| teller.a_far_stretch(species)).collect();
            assert!(stretches.contains(&top_stretch(species)) && stretches.contains(&OLD_STRETCHES));
            assert!(stretches.into_iter().all(|stretch| stretch <= top_stretch(species)));
        }
    }
}
