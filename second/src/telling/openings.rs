//! Old files opened, and what is said first through the work pointer.

use super::teller::Teller;
use crate::model::opening::WORK;

impl Teller {
    /// Opens an old file for work or for reading, by the word.
    pub fn open_old(&mut self, word: &str, user: u32, entry: u32, name: &[u8]) -> String {
        let opened = self.say_with_name(word, user, entry, name);
        if word == "work" && opened.starts_with("done") {
            self.place_the_work_pointer(user, entry);
        }
        opened
    }

    /// "a work opening of an old file puts pointer 2 at the end value": mostly it is reset, so that what follows replaces
    /// and reads elements from the begin on; else it is used there, or just stays.
    fn place_the_work_pointer(&mut self, user: u32, entry: u32) {
        match self.random.weighted(&[75, 20, 5]) {
            0 => {
                self.say(format!("reset {} {}", user, entry));
            }
            1 => {
                for _ in 0..self.random.between(1, 3) {
                    self.access_through(user, entry, WORK);
                }
            }
            _ => {}
        }
    }
}
