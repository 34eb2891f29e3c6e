//! Numbers to be written, by chance: mostly of the file's species, often at its ends, now and then beyond them.
use crate::random::Random;
use crate::twin::greatest;

/// The ends of 16 bits, with a sign and without, and of 32, and their neighbours.
const AROUND: [i32; 14] =
    [i32::MIN, -65_537, -65_536, -32_769, -32_768, -32_767, -1, 0, 32_766, 32_767, 32_768, 65_535, 65_536, i32::MAX];

fn fitting(random: &mut Random, species: u32) -> u32 {
    if random.one_in(8) {
        return greatest(species);
    }
    random.number() as u32 & greatest(species)
}

/// A number that is too wide; of species 5, of which none is, any.
fn beyond(random: &mut Random, species: u32) -> u32 {
    let least = greatest(species).wrapping_add(1);
    match random.below(3) {
        0 => least,
        1 => u32::MAX,
        _ => random.number() as u32 | least,
    }
}

pub fn plain(random: &mut Random, species: u32) -> u32 {
    if random.one_in(8) {
        return beyond(random, species);
    }
    fitting(random, species)
}

pub fn signed(random: &mut Random) -> i32 {
    match random.below(8) {
        0..=1 => AROUND[random.below(AROUND.len() as u32) as usize],
        2 => random.number() as i32,
        _ => i32::from(random.number() as i16),
    }
}

/// For a run: in one list of three a number or two, anywhere, are beyond.
pub fn list(random: &mut Random, species: u32, length: u32) -> Vec<u32> {
    let mut numbers: Vec<u32> = (0..length).map(|_| fitting(random, species)).collect();
    if length > 0 && random.one_in(3) {
        for _ in 0..1 + random.below(2) {
            numbers[random.below(length) as usize] = beyond(random, species);
        }
    }
    numbers
}
