//! One store, one set of tables, four image buffers and two list buffers, and the answer to each line.

use super::line::{Line, IMAGES, LISTS};
use super::words::BadLine;
use crate::calls::{access, closing, inquiries, moving, opening, pointers, runs, tidying};
use crate::cells::form::{Form, FORM_1, FORM_2};
use crate::cells::image::{catalogue_of, Image, SAVED_FORM, SAVED_LENGTH};
use crate::cells::tables::Tables;
use crate::model::buffer::Buffer;
use crate::model::catalogue::Catalogue;
use crate::model::store::Store;
use crate::rules::refusal::{Answer, Refusal};

/// "`image0` to `image3` (1,024 cells each)".
const IMAGE_CELLS: usize = 1_024;

/// "Two list buffers, `list0` and `list1`, 2,112 cells each ...; 40 cells of each are lent at first".
pub const LIST_CELLS: usize = 2_112;
pub const LIST_LENT_AT_FIRST: usize = 40;

pub struct Desk {
    pub store: Store,
    pub tables: Tables,
    pub(super) images: [Buffer; IMAGES],
    pub(super) lists: [Buffer; LISTS],
}

impl Desk {
    pub fn new() -> Desk {
        let image = || Buffer::of_zeros(IMAGE_CELLS, SAVED_LENGTH);
        let list = || Buffer::of_zeros(LIST_CELLS, LIST_LENT_AT_FIRST);
        Desk {
            store: Store::new(),
            tables: Tables::new(),
            images: [image(), image(), image(), image()],
            lists: [list(), list()],
        }
    }

    /// The answer to a line without its newline; nothing for "an empty line and one that begins with `#`".
    pub fn answer(&mut self, line: &[u8]) -> Option<String> {
        if line.is_empty() || line[0] == b'#' {
            return None;
        }
        let answer = Line::read(line).and_then(|line| self.obey(line));
        Some(answer.unwrap_or_else(|BadLine(why)| format!("? {}", why)))
    }

    fn obey(&mut self, line: Line) -> Result<String, BadLine> {
        Ok(match line {
            Line::Lend(buffer, length) => {
                let length = self.index(buffer, length, 1)?;
                self.lend(buffer, length);
                format!("lent {}", length)
            }
            Line::Peek(buffer, cell) => {
                let cell = self.index(buffer, cell, 0)?;
                format!("cell {}", self.cells(buffer)[cell])
            }
            Line::Poke(buffer, cell, value) => {
                let cell = self.index(buffer, cell, 0)?;
                self.poke(buffer, cell, value);
                format!("cell {}", value)
            }
            Line::Sum(buffer) => format!("sum {}", self.sum(buffer)),
            Line::Writes(u, e, p, list) => {
                let (unwritten, number) = self.write_run(u, e, p, list);
                format!("rest {} {}", unwritten, number)
            }
            Line::Nexts(u, e, p, list) => {
                let (filled, number) = self.fill_run(u, e, p, list);
                format!("filled {} {}", filled, number)
            }
            call => match self.call(call) {
                Ok(number) => format!("done {}", number),
                Err(refusal) => format!("refused {}", refusal.number()),
            },
        })
    }

    /// The calls of the rules. Refusal 20 comes before all others; the moves of images have none.
    fn call(&mut self, line: Line) -> Answer {
        match line {
            Line::Fresh => return self.fresh(),
            Line::Save(image) => return self.save(image),
            Line::Load(image) => return self.load(image),
            Line::Up(image, other, number) => return self.move_image(FORM_1, FORM_2, image, other, number),
            Line::Down(image, other, number) => return self.move_image(FORM_2, FORM_1, image, other, number),
            _ => {}
        }
        let store = &mut self.store;
        let catalogue = self.tables.usable_mut(store)?;
        match line {
            Line::Free(u) => inquiries::free_segments(catalogue, u),
            Line::New(u, e, species) => opening::open_new(catalogue, u, e, species),
            Line::Work(u, e, name) => opening::open_old(catalogue, u, e, name, true),
            Line::Read(u, e, name) => opening::open_old(catalogue, u, e, name, false),
            Line::Rename(u, e, name) => closing::rename(catalogue, u, e, name),
            Line::Close(u, e) => closing::close(catalogue, u, e, false),
            Line::Public(u, e) => closing::close(catalogue, u, e, true),
            Line::Abandon(u, e) => closing::abandon(catalogue, u, e),
            Line::Reset(u, e) => pointers::reset(catalogue, u, e),
            Line::Pointer(u, e, p) => pointers::new_pointer(catalogue, u, e, p),
            Line::Delete(u, e, p) => pointers::delete(catalogue, u, e, p),
            Line::Write(kind, u, e, p, x) => access::write(catalogue, store, kind, u, e, p, x),
            Line::Next(kind, u, e, p) => access::next(catalogue, kind, u, e, p),
            Line::Prev(kind, u, e, p) => access::prev(catalogue, kind, u, e, p),
            Line::Inquire(u, e, inquiry) => inquiries::inquire(catalogue, u, e, inquiry),
            Line::Tidy => tidying::tidy(catalogue, store),
            _ => unreachable!("the other lines were answered before"),
        }
    }

    /// "A fresh start gives it floor(length / 64) segments, at most 1,024".
    fn fresh(&mut self) -> Answer {
        self.tables.check_lengths(&self.store)?;
        self.tables.say(Catalogue::empty(self.store.segments_that_fit()));
        Ok(0)
    }

    /// "Save and load: 20, then 22." A save looks at the image's length alone.
    fn save(&mut self, image: usize) -> Answer {
        let saved = Image::of(self.tables.usable(&self.store)?);
        let lent = self.images[image].lent_cells_mut();
        if lent.len() != SAVED_LENGTH {
            return Err(Refusal::ImageUnfit);
        }
        lent.copy_from_slice(&saved.cells(SAVED_FORM));
        Ok(0)
    }

    fn load(&mut self, image: usize) -> Answer {
        self.tables.check_lengths(&self.store)?;
        let said = catalogue_of(SAVED_FORM, self.images[image].lent_cells(), &self.store);
        self.tables.say(said.map_err(|_| Refusal::ImageUnfit)?);
        Ok(0)
    }

    /// Between two buffers, as no line names one twice.
    fn move_image(&mut self, from: Form, to: Form, image: usize, other: usize, segments_there: u32) -> Answer {
        let cells = self.images[image].lent_cells().to_vec();
        moving::move_image(from, to, &cells, self.images[other].lent_cells_mut(), segments_there)
    }

    /// Refusal 20 leaves the whole list unwritten. It cannot come later in a run, as "every call leaves sound tables
    /// sound" and nothing is lent otherwise meanwhile.
    fn write_run(&mut self, user: u32, entry: u32, pointer: u32, list: usize) -> (usize, u32) {
        let list = self.lists[list].lent_cells();
        match self.tables.usable_mut(&self.store) {
            Ok(catalogue) => runs::write_run(catalogue, &mut self.store, user, entry, pointer, list),
            Err(refusal) => (list.len(), refusal.number()),
        }
    }

    fn fill_run(&mut self, user: u32, entry: u32, pointer: u32, list: usize) -> (usize, u32) {
        match self.tables.usable_mut(&self.store) {
            Ok(catalogue) => runs::fill_run(catalogue, user, entry, pointer, self.lists[list].lent_cells_mut()),
            Err(refusal) => (0, refusal.number()),
        }
    }
}

impl Default for Desk {
    fn default() -> Self {
        Desk::new()
    }
}
