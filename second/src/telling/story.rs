//! Which story is told next.

use super::mode::Mode;
use super::teller::Teller;

type Story = fn(&mut Teller);

/// Each story, and how often it is told in each mode, in the order of `Mode::ALL`: mixed, calm, small, edge, damage, moves,
/// bytes.
const STORIES: [(Story, [u32; Mode::ALL.len()]); 30] = [
    (Teller::wander, [16, 20, 16, 6, 6, 5, 10]),
    (Teller::build, [12, 20, 20, 4, 10, 9, 8]),
    (Teller::share, [18, 24, 20, 8, 8, 5, 8]),
    (Teller::read_back, [8, 12, 8, 6, 3, 4, 4]),
    (Teller::contend_for_a_record, [8, 12, 8, 4, 6, 2, 4]),
    (Teller::use_many_pointers, [5, 7, 3, 2, 2, 1, 2]),
    (Teller::fill_the_catalogue, [2, 2, 1, 1, 1, 1, 1]),
    (Teller::fill_the_store, [3, 4, 10, 1, 1, 1, 1]),
    (Teller::use_up_positions, [4, 0, 2, 16, 2, 3, 1]),
    (Teller::open_a_forged_record, [6, 0, 2, 20, 4, 4, 1]),
    (Teller::need_a_33rd_segment, [3, 0, 0, 14, 1, 1, 1]),
    (Teller::damage_the_tables, [12, 0, 3, 2, 36, 2, 2]),
    (Teller::exchange_segments, [3, 0, 1, 2, 8, 1, 1]),
    (Teller::damage_an_image, [8, 0, 3, 2, 24, 3, 2]),
    (Teller::make_a_twin_record, [4, 0, 1, 1, 9, 2, 1]),
    (Teller::make_a_twin_opening, [4, 0, 1, 1, 9, 1, 1]),
    (Teller::lend_wrong_lengths, [5, 0, 2, 3, 8, 2, 2]),
    (Teller::save_or_load, [5, 5, 4, 4, 5, 4, 2]),
    (Teller::poke_the_store, [4, 0, 2, 2, 3, 1, 1]),
    (Teller::say_odd_lines, [5, 0, 1, 1, 3, 1, 50]),
    (Teller::make_double_faults, [6, 0, 2, 2, 5, 2, 3]),
    (Teller::use_runs, [12, 14, 14, 8, 12, 3, 6]),
    (Teller::ask_for_namesakes, [24, 18, 7, 6, 6, 4, 6]),
    (Teller::scatter_and_tidy, [30, 24, 18, 18, 18, 4, 2]),
    (Teller::keep_temperatures, [8, 10, 7, 6, 8, 6, 5]),
    (Teller::meet_wide_numbers, [5, 6, 6, 4, 4, 1, 3]),
    (Teller::keep_a_far_file, [9, 0, 4, 12, 4, 6, 2]),
    (Teller::offer_images, [6, 0, 3, 6, 12, 8, 2]),
    (Teller::lie_apart, [5, 0, 3, 8, 10, 2, 2]),
    (Teller::move_images, [14, 8, 6, 10, 16, 60, 3]),
];

/// Of a hundred stories, those before which all begins anew.
const NEW_STARTS: u32 = 2;

/// After so many lines one of the stories comes up that lead to what chance alone reaches seldom.
const LINES_BETWEEN_RARE_STORIES: usize = 160;

impl Teller {
    pub fn tell_a_story(&mut self) {
        self.make_usable();
        if self.random.chance(NEW_STARTS) {
            self.start_anew();
        }
        if self.mode != Mode::Calm && self.lines.len() >= self.rare_stories * LINES_BETWEEN_RARE_STORIES {
            self.rare_stories += 1;
            self.tell_a_rare_story();
        }
        let weights = STORIES.map(|(_, weights)| weights[self.mode as usize]);
        let (story, _) = STORIES[self.random.weighted(&weights)];
        story(self);
        self.look();
    }

    fn tell_a_rare_story(&mut self) {
        match self.rare_stories % 16 {
            0 | 6 => self.need_a_33rd_segment(),
            1 | 7 => self.clash_with_a_name(),
            2 | 8 => self.use_many_pointers(),
            3 => self.contend_for_a_record(),
            4 => self.use_up_positions(),
            5 => self.keep_temperatures(),
            9 => self.meet_wide_numbers(),
            10 => {
                self.run_with_and_without_elements();
                self.make_double_faults();
            }
            11 => self.keep_a_far_file(),
            12 => self.offer_images(),
            13 => self.lie_apart(),
            14 => self.move_images(),
            _ => self.fill_the_catalogue(),
        }
        self.look();
    }

    /// Where every call would be refused, mostly something is done about it.
    fn make_usable(&mut self) {
        if self.catalogue().is_some() || self.random.chance(15) {
            return;
        }
        if self.random.chance(50) {
            let image = self.random.below(4);
            self.say(format!("load {}", image));
        }
        if self.catalogue().is_none() {
            self.start_anew();
        }
    }
}
