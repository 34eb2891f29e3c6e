//! Moves as generated histories ask for them, and what there is to see in one by its answer.

use filing::cells::fields::record as of_record;
use filing::cells::form::{Form, Heading, FORM_1, FORM_2};
use filing::cells::image::Image;
use filing::rules::sizes::PLACES;
use filing::text::answering::Desk;
use filing::text::line::{BufferName, Line};

const OLD_LAST: u32 = 16_777_215;

/// A move as it was asked for, and what lay there.
pub struct Asked {
    pub word: &'static str,
    from: Form,
    number: u32,
    /// The cells that an image of the form has, lent or not, and those of the buffer that it is moved to.
    pub cells: Vec<u32>,
    other: Vec<u32>,
    image_lent_right: bool,
    other_lent_right: bool,
    tables_fit: bool,
}

pub fn asked(desk: &Desk, line: &Line) -> Option<Asked> {
    let (word, from, to, image, other, number) = match *line {
        Line::Up(image, other, number) => ("up", FORM_1, FORM_2, image, other, number),
        Line::Down(image, other, number) => ("down", FORM_2, FORM_1, image, other, number),
        _ => return None,
    };
    let (image, other) = (BufferName::Image(image), BufferName::Image(other));
    Some(Asked {
        word,
        from,
        number,
        cells: desk.cells(image)[..from.length()].to_vec(),
        other: desk.cells(other)[..to.length()].to_vec(),
        image_lent_right: desk.lent(image) == from.length(),
        other_lent_right: desk.lent(other) == to.length(),
        tables_fit: desk.tables.usable(&desk.store).is_ok(),
    })
}

impl Asked {
    fn records(&self) -> Vec<[u32; of_record::COUNT]> {
        let record = |place| self.from.unpacked_record(&self.cells[self.from.cells_of(place)]).numbers;
        (0..PLACES).map(record).filter(|numbers| numbers[of_record::USED] == 1).collect()
    }

    fn segments(&self) -> u32 {
        Heading::of_cell(self.cells[0]).segments
    }

    fn is_wide(&self) -> bool {
        self.records().iter().any(|numbers| numbers[of_record::END] > OLD_LAST)
    }

    fn is_sound_in_a_large_store(&self) -> bool {
        Image::read(self.from, &self.cells).and_then(|image| image.judged(u32::MAX)).is_ok()
    }

    pub fn done(&self, after: &[u32]) -> Vec<String> {
        let records = self.records();
        let some = |wanted: &dyn Fn(&[u32; of_record::COUNT]) -> bool| records.iter().any(wanted);
        let larger = self.number.wrapping_sub(self.segments());
        let things = [
            (true, "done"),
            (records.is_empty(), "done without records"),
            (some(&|numbers| numbers[of_record::SPECIES] == 6), "done with species 6"),
            (some(&|numbers| numbers[of_record::LIST.end - 1] != 0), "done with 32 segments in a file"),
            (some(&|numbers| numbers[of_record::END] == OLD_LAST), "done with an end of 16777215"),
            (larger == 0, "done for just so many segments"),
            (larger == 1, "done for one segment more"),
            (self.number.wrapping_mul(64) / 64 < self.segments(), "done for cells that 32 bits do not count"),
            (self.number == u32::MAX, "done for 4294967295 segments"),
            (!self.tables_fit, "done beside unfit tables"),
            (self.other.iter().zip(after).any(|(&before, &after)| before != 0 && after == 0), "done over other cells"),
        ];
        things.into_iter().filter(|(seen, _)| *seen).map(|(_, thing)| thing.to_string()).collect()
    }

    pub fn too_wide(&self) -> Vec<String> {
        let records = self.records().into_iter().filter(|numbers| numbers[of_record::END] > OLD_LAST);
        let wide: Vec<(u32, u32)> =
            records.map(|numbers| (numbers[of_record::BEGIN], numbers[of_record::END])).collect();
        let things = [
            (wide.iter().all(|&(begin, _)| begin <= OLD_LAST), "too wide by the end alone"),
            (wide.iter().all(|&(_, end)| end == OLD_LAST + 1), "too wide by one"),
            (wide.iter().all(|&(begin, _)| begin > OLD_LAST), "too wide by begin and end"),
            (wide.iter().all(|&(begin, end)| begin == end), "too wide though empty"),
            (!self.tables_fit, "too wide beside unfit tables"),
        ];
        things.into_iter().filter(|(seen, _)| *seen).map(|(_, thing)| thing.to_string()).collect()
    }

    /// The one cause of a refusal, if there is but one.
    pub fn unfit(&self, last_sound: Option<&Vec<u32>>) -> Option<String> {
        let short = self.number < self.segments();
        let sound = self.is_sound_in_a_large_store();
        let cause = match (self.image_lent_right, self.other_lent_right, short, sound) {
            (false, true, false, true) => "the length of the image".to_string(),
            (true, false, false, true) => "the length of the other".to_string(),
            (false, false, false, true) => "both lengths".to_string(),
            (true, true, true, true) if self.number == 0 => "no segments there".to_string(),
            (true, true, true, true) if self.number + 1 == self.segments() => "one segment less".to_string(),
            (true, true, true, true) => "fewer segments".to_string(),
            (true, true, false, false) => changed_field(self.from, last_sound?, &self.cells)?,
            _ => return None,
        };
        let though = if self.is_wide() { ", though too wide" } else { "" };
        Some(format!("unfit by {}{}", cause, though))
    }
}

/// The one field in which the cells differ from those that were sound.
fn changed_field(form: Form, before: &[u32], now: &[u32]) -> Option<String> {
    let mut changed = Vec::new();
    let headings = (Heading::of_cell(before[0]), Heading::of_cell(now[0]));
    let mut look = |field: &str, before: u32, now: u32| {
        if before != now {
            changed.push(field.to_string());
        }
    };
    look("the form number", headings.0.form, headings.1.form);
    look("the number of segments", headings.0.segments, headings.1.segments);
    look("a zero bit of cell 0", headings.0.zero_bits, headings.1.zero_bits);
    for place in 0..PLACES {
        let [before, now] = [before, now].map(|cells| form.unpacked_record(&cells[form.cells_of(place)]));
        let used = if before.numbers[of_record::USED] == 1 { "a used" } else { "an unused" };
        look(&format!("a bit at {} record's end", used), before.spare, now.spare);
        for field in 0..of_record::COUNT {
            let name = if used == "a used" { field_name(field) } else { "an unused record" };
            look(name, before.numbers[field], now.numbers[field]);
        }
    }
    match changed.len() {
        1 => changed.pop(),
        _ => None,
    }
}

fn field_name(field: usize) -> &'static str {
    match field {
        of_record::USED => "the used bit",
        of_record::OWNER => "an owner",
        of_record::PRIVATE => "a privacy",
        of_record::SPECIES => "a species",
        of_record::BEGIN => "a begin",
        of_record::END => "an end",
        _ if of_record::NAME.contains(&field) => "a name",
        _ => "a list",
    }
}
