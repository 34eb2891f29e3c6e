//! Positions near the greatest end, and files of 32 segments.

use super::forging::Shape;
use super::teller::Teller;
use crate::model::opening::{BEGIN, END};
use crate::rules::sizes::GREATEST_END;

impl Teller {
    /// A new file whose positions are nearly used up.
    pub fn use_up_positions(&mut self) {
        let (user, entry) = self.a_closed_entry();
        let species = self.a_known_species();
        let opened = self.say(format!("new {} {} {}", user, entry, species));
        if self.gives_up_after(&opened) {
            return;
        }
        let position = self.a_position_near_the_end();
        self.move_empty_file(user, entry, position);
        if self.random.chance(30) {
            // One more than the greatest end is no number of a cell; what a sum of 32 bits makes of it is no end.
            self.move_empty_file(user, entry, GREATEST_END);
            self.move_end(user, entry, GREATEST_END.wrapping_add(1));
            self.say("free 1");
            self.move_end(user, entry, GREATEST_END);
            self.say("free 1");
        }
        let few = self.random.between(1, 4);
        self.append_some(user, entry, few);
        self.work_at_the_edge(user, entry);
    }

    /// A record of some or of 32 segments.
    pub fn open_a_forged_record(&mut self) {
        let held = self.random.pick(&[1, 1, 2, 2, 3, 31, 32, 32, 32]);
        let (owner, name) = match self.forge_a_record(held) {
            Some(forged) => forged,
            None => return self.start_anew(),
        };
        self.look();
        let entry = self.closed_entry_of(owner);
        let opened = self.open_old("work", owner, entry, &name);
        if self.gives_up_after(&opened) {
            return;
        }
        self.inquire_all(owner, entry);
        self.work_at_the_edge(owner, entry);
    }

    /// A new file of 32 segments, in a store that has no other or some more.
    pub fn need_a_33rd_segment(&mut self) {
        let too_few = self.catalogue().map_or(true, |catalogue| catalogue.free.len() < 32);
        if too_few || self.random.chance(60) {
            let segments = self.random.pick(&[32, 32, 33, 34, 40]);
            self.say(format!("lend store {}", segments * 64));
            self.say("fresh");
        }
        let (user, entry) = self.a_closed_entry();
        let species = self.a_known_species();
        let opened = self.say(format!("new {} {} {}", user, entry, species));
        if self.gives_up_after(&opened) {
            return;
        }
        let shape: Shape = match self.a_shape(32) {
            Some(shape) => shape,
            None => return,
        };
        self.reshape_opening(user, entry, &shape);
        self.inquire_all(user, entry);
        for _ in 0..self.random.between(1, 2) {
            let count = self.random.between(2, 8);
            self.append_a_run(user, entry, count);
        }
        self.append_some(user, entry, 6);
        if self.random.chance(60) {
            self.write_too_wide(user, entry);
        }
        self.work_at_the_edge(user, entry);
        if self.random.chance(60) {
            self.say(format!("rename {} {} big", user, entry));
            self.say(format!("close {} {}", user, entry));
            self.open_old("work", user, entry, b"big");
            self.append_some(user, entry, 3);
            self.work_at_the_edge(user, entry);
        }
    }

    /// Appends, drops at both ends, reads and writes in between.
    fn work_at_the_edge(&mut self, user: u32, entry: u32) {
        for _ in 0..self.random.between(4, 24) {
            match self.random.weighted(&[9, 4, 4, 3, 2, 2, 2, 2, 1]) {
                0 => self.append_some(user, entry, 1),
                1 => {
                    self.prev(user, entry, END);
                }
                2 => {
                    let pointer = self.a_pointer();
                    self.access_through(user, entry, pointer);
                }
                3 => {
                    self.say(format!("pointer {} {} 1", user, entry));
                    self.prev(user, entry, 3);
                    self.write(user, entry, 3);
                }
                4 => {
                    self.next(user, entry, BEGIN);
                }
                5 => {
                    let few = self.random.between(1, 5);
                    self.append_a_run(user, entry, few);
                }
                6 => self.write_too_wide(user, entry),
                7 => {
                    self.write(user, entry, BEGIN);
                }
                _ => self.look(),
            }
        }
        match self.random.below(4) {
            0 => self.say(format!("abandon {} {}", user, entry)),
            1 => self.say(format!("close {} {}", user, entry)),
            2 => self.say(format!("claim {} {}", user, entry)),
            _ => self.say(format!("value {} {} 1", user, entry)),
        };
    }
}
