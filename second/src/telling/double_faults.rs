//! Calls with two things wrong at once: only the order of the refusals says which number is answered.

use super::teller::Teller;
use crate::cells::fields::{opening_cells, TABLES_LENGTH};
use crate::cells::image::SAVED_LENGTH;

impl Teller {
    pub fn make_double_faults(&mut self) {
        for _ in 0..self.random.between(1, 4) {
            match self.random.below(7) {
                0 => self.open_an_open_entry(),
                1 => self.misuse_a_read_opening(),
                2 => self.ask_for_nothing_of_nobody(),
                3 => self.save_and_load_with_two_wrong_lengths(),
                4 => self.run_with_and_without_elements(),
                5 => {
                    let (user, entry) = self.an_open_entry();
                    self.cross_kinds(user, entry);
                }
                _ => self.save_unsound_tables(),
            }
        }
    }

    fn open_an_open_entry(&mut self) {
        let (user, entry) = self.an_open_entry();
        let species = self.random.pick(&[6, 7, 8, u32::MAX]);
        self.say(format!("new {} {} {}", user, entry, species));
        self.say(format!("work {} {}", user, entry));
        self.say(format!("read {} {} neverused", user, entry));
    }

    /// Wrong pointers, wrong values and no permit together.
    fn misuse_a_read_opening(&mut self) {
        self.open_some_records();
        let (user, entry) = self.an_open_entry();
        for pointer in [0, 1, 2, 3, 7, 8] {
            let word = self.random.pick(&["next", "prev"]);
            self.step(word, user, entry, pointer);
            match self.random.chance(50) {
                true => self.write_out_of_range(user, entry, pointer),
                false => {
                    self.write(user, entry, pointer);
                }
            }
        }
        for pointer in [0, 0, 2, 8] {
            self.run_through(user, entry, pointer);
        }
        self.say(format!("public {} {}", user, entry));
        self.say(format!("rename {} {}", user, entry));
    }

    fn ask_for_nothing_of_nobody(&mut self) {
        let user = self.random.pick(&[7, 8, 8]);
        let entry = self.random.pick(&[3, 4]);
        self.say(format!("new {} {} 7", user, entry));
        self.say(format!("work {} {} ", user, entry));
        self.say(format!("write {} {} 9 9", user, entry));
        self.say(format!("write_signed {} {} 9 -99999", user, entry));
        self.say(format!("prev_signed {} {} 9", user, entry));
        self.say(format!("delete {} {} 1", user, entry));
        self.say(format!("pointer {} {} 9", user, entry));
        for _ in 0..2 {
            self.run_through(user, entry, 9);
        }
        let (user, entry) = self.a_closed_entry();
        self.say(format!("work {} {}", user, entry));
        self.say(format!("read {} {} ", user, entry));
    }

    fn save_and_load_with_two_wrong_lengths(&mut self) {
        let image = self.random.below(4);
        let cells_more = self.random.pick(&[0, 2]);
        self.say(format!("lend image{} {}", image, SAVED_LENGTH + cells_more - 1));
        self.say(format!("lend tables {}", TABLES_LENGTH + cells_more - 1));
        self.say(format!("save {}", image));
        self.say(format!("load {}", image));
        self.say("tidy");
        self.say(format!("lend tables {}", TABLES_LENGTH));
        self.say(format!("save {}", image));
        self.say(format!("load {}", image));
        self.say(format!("lend image{} {}", image, SAVED_LENGTH));
    }

    /// An opening of no record without the permit, an image of wrong length, and calls that are wrong anyway.
    fn save_unsound_tables(&mut self) {
        let (user, entry) = (self.random.below(8), self.random.below(4));
        let permit = opening_cells(user as usize, entry as usize).start + 2;
        let image = self.random.below(4);
        self.say(format!("lend image{} {}", image, SAVED_LENGTH + 1));
        self.say(format!("poke tables {} 2", permit));
        self.say(format!("save {}", image));
        self.say("tidy");
        self.say(format!("new 8 4 {}", user));
        self.say(format!("free {}", 8 + user));
        self.run_with_and_without_elements();
        self.say(format!("lend image{} {}", image, SAVED_LENGTH));
        self.say(format!("load {}", image));
        if self.catalogue().is_none() {
            self.start_anew();
        }
    }
}
