//! Second records and second openings like ones that are there.

use super::arguments::text_of;
use super::teller::Teller;
use crate::cells::fields::{self, opening as of_opening, record as of_record};
use crate::cells::form::RecordBits;
use crate::cells::image::SAVED_FORM;
use crate::text::line::BufferName;

impl Teller {
    /// A second record like one that is there: another owner, other privacy, and empty or with the same segments.
    pub fn make_a_twin_record(&mut self) {
        let place = self.a_used_place();
        let start = fields::record_cells(place).start;
        let mut numbers = [0; of_record::COUNT];
        for (offset, number) in numbers.iter_mut().enumerate() {
            *number = self.cell(BufferName::Tables, start + offset);
        }
        if self.random.chance(60) {
            numbers[of_record::OWNER] = self.random.below(8);
        }
        if self.random.chance(50) {
            numbers[of_record::PRIVATE] = self.random.below(2);
        }
        if self.random.chance(80) {
            numbers[of_record::END] = numbers[of_record::BEGIN];
            numbers[of_record::LIST].fill(0);
        }
        let other = self.a_place();
        if self.random.chance(50) {
            self.put_into_tables(other, &numbers);
        } else {
            let image = self.random.index(4);
            self.say(format!("save {}", image));
            self.put_into_image(SAVED_FORM, image, other, &RecordBits::with_zero_bits(numbers));
            self.say(format!("load {}", image));
        }
        self.say("free 7");
        self.look();
        if self.random.chance(60) {
            self.ask_for_the_twins(other);
        }
        if self.random.chance(40) {
            self.put_into_tables(other, &[0; of_record::COUNT]);
            self.say("free 6");
        }
    }

    /// Both by their one name, which both owners and somebody else say, if the tables are sound with them.
    fn ask_for_the_twins(&mut self, place: usize) {
        let name = match self.catalogue().and_then(|catalogue| catalogue.records[place].as_ref()) {
            Some(record) => record.name,
            None => return,
        };
        let mut users = self.owners_of(&name);
        users.push(self.random.below(8));
        for user in users {
            if let Some(entry) = self.ask_by_name(user, &text_of(&name)) {
                self.say(format!("abandon {} {}", user, entry));
            }
        }
    }

    /// A second opening like one that is there, of the same or another user.
    pub fn make_a_twin_opening(&mut self) {
        self.open_some_records();
        let from = self.start_of_an_opening();
        let (user, entry) = self.a_closed_entry();
        let to = fields::opening_cells(user as usize % 8, entry as usize % 4).start;
        let keep_list = self.random.chance(60);
        for offset in (0..of_opening::COUNT).rev() {
            if keep_list || !of_opening::LIST.contains(&offset) {
                let value = self.cell(BufferName::Tables, from + offset);
                self.poke(BufferName::Tables, to + offset, value);
            }
        }
        self.say("free 5");
        if self.random.chance(40) {
            // Its own empty file, or another place, may make a sound opening of it.
            self.poke(BufferName::Tables, to + of_opening::PLACE, 0);
            self.say("free 4");
        }
        for _ in 0..self.random.below(6) {
            self.any_call();
        }
        if self.random.chance(70) {
            for offset in 0..of_opening::COUNT {
                self.poke(BufferName::Tables, to + offset, 0);
            }
            self.say("free 4");
        }
    }
}
