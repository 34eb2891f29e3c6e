//! Images moved from one form to the other: as they were saved, with one thing wrong, and whatever they hold.

use super::images::{FORM_1_LENGTH, FORM_2_LENGTH, RECORD_CELLS};
use super::trials::{lend, Trial};
use crate::spoiling::{spoilings_of, Spoiling};
use crate::teller::{Teller, Told};
use filing::model::file::File;

/// "A sound form 2 image moves down exactly if every begin and end is at most 16,777,215".
const GREATEST_OLD_END: u32 = 16_777_215;

/// 64 times so many segments are more cells than 32 bits can count.
const MANY_SEGMENTS: u32 = 1 << 26;

/// From an image buffer to another, for a store of so many segments.
#[derive(Clone, Copy)]
struct Move {
    call: &'static str,
    from: u32,
    to: u32,
    segments: u32,
}

/// Lines that spoil something, and lines that put it right.
type Changes = (Vec<String>, Vec<String>);

impl Move {
    fn line(&self) -> String {
        format!("{} {} {} {}", self.call, self.from, self.to, self.segments)
    }

    /// Of the image that is read, and of the one that is written.
    fn lengths(&self) -> (u32, u32) {
        match self.call {
            "up" => (FORM_1_LENGTH, FORM_2_LENGTH),
            _ => (FORM_2_LENGTH, FORM_1_LENGTH),
        }
    }
}

impl Teller {
    /// Saves, moves the image down, and what has come of it up again; then one of the two moves with one thing wrong.
    pub fn move_there_and_back(&mut self) -> Told {
        self.keep_files()?;
        let first = self.random.below(4);
        let [saved, old, again] = [0, 1, 2].map(|next| (first + next) % 4);
        self.say_all(&[lend(saved, FORM_2_LENGTH), lend(old, FORM_1_LENGTH), lend(again, FORM_2_LENGTH)])?;
        if !self.say(format!("save {saved}"))? {
            return Ok(());
        }
        let segments = self.segments_for(saved);
        let down = Move { call: "down", from: saved, to: old, segments };
        let up = Move { call: "up", from: old, to: again, segments };
        // Where a file lies too far up, there is nothing to be moved back.
        if !self.say(down.line())? || !self.say(up.line())? {
            return Ok(());
        }
        let one = self.random.one_of(&[down, up]);
        self.move_spoiled(one)
    }

    /// Whatever two images hold, for any number of segments, and mostly in the right lengths.
    pub fn move_anything(&mut self, call: &'static str) -> Told {
        let (from, further) = (self.random.below(4), self.random.between(1, 3));
        let any_number = self.wild_number();
        let segments = self.random.one_of(&[any_number, self.segments_in(from)]);
        let any = Move { call, from, to: (from + further) % 4, segments };
        if !self.random.once_in(3) {
            let (read, written) = any.lengths();
            self.say_all(&[lend(any.from, read), lend(any.to, written)])?;
        }
        self.say(any.line())?;
        Ok(())
    }

    /// "number of segments 11 bits", after the form.
    fn segments_in(&self, image: u32) -> u32 {
        self.image_cell(image, 0) >> 13 & 0x7FF
    }

    /// A number of segments that the image fits.
    fn segments_for(&mut self, image: u32) -> u32 {
        let own = self.segments_in(image);
        self.random.one_of(&[own, own, own + 1, 1_024, MANY_SEGMENTS, MANY_SEGMENTS + own, u32::MAX])
    }

    fn move_spoiled(&mut self, good: Move) -> Told {
        let (spoiling, own) = (self.random.one_of(&spoilings_of(good.call)), self.segments_in(good.from));
        let ((read, written), one_less) = (good.lengths(), Move { segments: own - 1, ..good });
        let (mut wrong, mut right) = (good, good);
        let changes = match spoiling {
            Spoiling::LengthToRead => self.lend_otherwise(good.from, read),
            Spoiling::LengthToWrite => self.lend_otherwise(good.to, written),
            Spoiling::Segments => {
                (wrong, right) = (one_less, Move { segments: own, ..good });
                Default::default()
            }
            Spoiling::End => {
                let Some((mut spoil, mend)) = self.end_otherwise(good.from) else { return Ok(()) };
                // "22 comes before 24": the number is wrong too.
                spoil.push(one_less.line());
                (spoil, mend)
            }
            _ => self.any_bit_otherwise(good.from, read),
        };
        self.try_spoiled(Trial { call: good.call, spoiling, changes, wrong: wrong.line(), right: right.line() })
    }

    fn lend_otherwise(&mut self, image: u32, length: u32) -> Changes {
        let any = self.random.below(1_025);
        let other = self.random.one_of(&[0, FORM_1_LENGTH, FORM_2_LENGTH, length - 1, length + 1, any]);
        (vec![lend(image, other)], vec![lend(image, length)])
    }

    /// In the heading, in the first records or anywhere.
    fn any_bit_otherwise(&mut self, image: u32, length: u32) -> Changes {
        let (near, any) = (self.random.between(1, 3 * RECORD_CELLS), self.random.below(length));
        let (cell, bit) = (self.random.one_of(&[0, near, near, any]), self.random.below(32));
        self.flip(image, cell, 1 << bit)
    }

    /// A record of a form 2 image comes to end beyond what form 1 has room for, and then at the last that it has room for.
    fn end_otherwise(&mut self, image: u32) -> Option<Changes> {
        let (place, record) = self.record()?;
        let beyond = self.random.one_of(&[1, 1, 2, 64, 1 << 24, u32::MAX - GREATEST_OLD_END]);
        let lines = |end: u32| self.bounds(image, place as u32, begin_before(end, &record.file), end);
        Some((lines(GREATEST_OLD_END + beyond), lines(GREATEST_OLD_END)))
    }

    /// The lines that give a record of a form 2 image these bounds. After 80 bits come "begin and end of 32 bits each".
    fn bounds(&self, image: u32, place: u32, begin: u32, end: u32) -> Vec<String> {
        let start = 1 + place * RECORD_CELLS;
        let (before, after) = (self.image_cell(image, start + 2), self.image_cell(image, start + 4));
        let cells = [before & 0xFFFF_0000 | begin >> 16, begin << 16 | end >> 16, end << 16 | after & 0x0000_FFFF];
        (start + 2..).zip(cells).map(|(cell, value)| format!("poke image{image} {cell} {value}")).collect()
    }
}

/// Where a file begins that has this end and as many segments as that one.
fn begin_before(end: u32, file: &File) -> u32 {
    let (elements, held) = (file.species().elements_in_a_segment(), file.segments().len() as u32);
    match held {
        0 => end,
        _ => ((end - 2) / elements + 1 - held) * elements + 1,
    }
}
