//! Long mixed histories by seed. The teller answers its own lines as it goes, so that it knows what is open, what
//! is there and which cells hold what; the history is text alone.

mod arguments;
mod bad_lines;
mod contention;
mod crowds;
mod damage;
mod double_faults;
mod edges;
mod elements;
mod far_files;
mod files;
mod fitting;
mod forging;
mod image_cells;
mod image_damage;
mod image_forms;
mod images_to_move;
mod lengths;
mod letting_go;
mod lists;
pub mod mode;
mod move_trials;
mod moves;
mod namesakes;
mod numbers;
mod odd_lines;
mod openings;
mod positions;
mod random;
mod runs;
mod scattering;
mod seats;
mod signed;
mod story;
mod stretches_apart;
mod teller;
mod tidying;
mod too_wide;
mod twins;
mod wandering;
mod wide_images;
mod wrong_values;

use mode::Mode;
use teller::Teller;

/// So many lines, always the same for the same seed and mode.
pub fn history(seed: u64, count: usize, mode: Mode) -> Vec<Vec<u8>> {
    let mut teller = Teller::new(seed, mode);
    teller.say("# a generated history");
    teller.start_anew();
    while teller.lines.len() < count {
        teller.tell_a_story();
    }
    teller.lines.truncate(count);
    teller.lines
}
