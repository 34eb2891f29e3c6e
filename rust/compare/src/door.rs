//! The library's side: store, tables, four images and two lists of its own, and the calls of a line made through the crate
//! `dorrivand`.

use crate::buffer::Buffer;
use crate::line::{Buffers, Line, CALLS};
use crate::reply::Reply;
use dorrivand::{forms, Refusal, Store};
use std::mem;

pub const LIST_CELLS: usize = 2_112;

pub struct Door {
    pub store: Buffer,
    pub tables: Buffer,
    pub images: [Buffer; 4],
    pub lists: [Buffer; 2],
    /// Whether every call is lent copies that are allocated by themselves, so that a tool that watches memory sees any
    /// access beside them.
    pub apart: bool,
}

/// What a call may be lent.
struct Lent<'a> {
    store: &'a mut [u32],
    tables: &'a mut [u32],
    /// The image that the call names, and the one that a move writes.
    images: [&'a mut [u32]; 2],
    list: &'a mut [u32],
}

impl Door {
    /// The buffers of the text of histories.
    pub fn new(apart: bool) -> Door {
        let tables = dorrivand::tables_length();
        let image = || Buffer::of_zeros(1_024, dorrivand::image_length());
        let list = || Buffer::of_zeros(LIST_CELLS, 40);
        Door {
            store: Buffer::of_zeros(65_600, 65_536),
            tables: Buffer::of_zeros(tables + 64, tables),
            images: [image(), image(), image(), image()],
            lists: [list(), list()],
            apart,
        }
    }

    /// What it came to, where the line is a call.
    pub fn obey(&mut self, line: Line) -> Option<Reply> {
        match line {
            Line::Lend(buffer, length) => {
                self.buffer(buffer).lend(length as usize);
                None
            }
            Line::Poke(buffer, cell, value) => {
                self.buffer(buffer).poke(cell as usize, value);
                None
            }
            Line::Call(call, numbers, name) => {
                let perform = if self.apart { perform_apart } else { perform };
                Some(perform(CALLS[call], numbers, name, self.lent(CALLS[call], numbers)))
            }
        }
    }

    /// A save and a load name an image, a move names two, and a run names a list; the others are not lent them.
    fn lent(&mut self, call: &str, [first, second, _, fourth]: [u32; 4]) -> Lent<'_> {
        let mut images: Vec<&mut [u32]> = self.images.iter_mut().map(Buffer::lent).collect();
        let mut image = |number: u32| mem::take(&mut images[number as usize]);
        Lent {
            store: self.store.lent(),
            tables: self.tables.lent(),
            images: match call {
                "save" | "load" => [image(first), Default::default()],
                "up" | "down" => [image(first), image(second)],
                _ => Default::default(),
            },
            list: match call {
                "writes" | "nexts" => self.lists[fourth as usize].lent(),
                _ => Default::default(),
            },
        }
    }

    fn buffer(&mut self, buffer: Buffers) -> &mut Buffer {
        match buffer {
            Buffers::Store => &mut self.store,
            Buffers::Tables => &mut self.tables,
            Buffers::Image(image) => &mut self.images[image],
            Buffers::List(list) => &mut self.lists[list],
        }
    }

    pub fn guards_stand(&self) -> bool {
        let others = self.images.iter().chain(&self.lists).all(Buffer::guards_stand);
        others && self.store.guards_stand() && self.tables.guards_stand()
    }
}

fn perform_apart(call: &str, numbers: [u32; 4], name: &[u8], lent: Lent) -> Reply {
    let copy = |cells: &[u32]| cells.to_vec().into_boxed_slice();
    let (mut store, mut tables) = (copy(lent.store), copy(lent.tables));
    let [image, other] = lent.images;
    let (mut image_copy, mut other_copy, mut list) = (copy(image), copy(other), copy(lent.list));
    let name = name.to_vec().into_boxed_slice();
    let images = [&mut image_copy[..], &mut other_copy[..]];
    let copies = Lent { store: &mut store, tables: &mut tables, images, list: &mut list };
    let reply = perform(call, numbers, &name, copies);
    lent.store.copy_from_slice(&store);
    lent.tables.copy_from_slice(&tables);
    image.copy_from_slice(&image_copy);
    other.copy_from_slice(&other_copy);
    lent.list.copy_from_slice(&list);
    reply
}

fn perform(call: &str, numbers: [u32; 4], name: &[u8], lent: Lent) -> Reply {
    let mut store = Store::over(lent.store, lent.tables);
    let [user, entry, pointer, _] = numbers;
    let length = lent.list.len();
    match call {
        "writes" => {
            let (rest, stop) = store.write_run(user, entry, pointer, lent.list);
            Reply::Rest { left: rest.len(), length, stop }
        }
        "nexts" => {
            let (filled, stop) = store.fill_run(user, entry, pointer, lent.list);
            Reply::Filled { filled, length, stop }
        }
        "next_signed" => Reply::Single(store.next_signed(user, entry, pointer).map(i64::from)),
        "prev_signed" => Reply::Single(store.prev_signed(user, entry, pointer).map(i64::from)),
        _ => Reply::Single(perform_single(call, numbers, name, &mut store, lent.images).map(i64::from)),
    }
}

fn perform_single(
    call: &str,
    [user, entry, third, fourth]: [u32; 4],
    name: &[u8],
    store: &mut Store,
    [image, other]: [&mut [u32]; 2],
) -> Result<u32, Refusal> {
    // "N being 0 where document 01 gives the answer no number".
    let nothing = |answer: Result<(), Refusal>| answer.map(|()| 0);
    match call {
        "fresh" => nothing(store.fresh_start()),
        "save" => nothing(store.save(image)),
        "load" => nothing(store.load(image)),
        "up" => nothing(forms::up(image, other, third)),
        "down" => nothing(forms::down(image, other, third)),
        "tidy" => store.tidy(),
        "free" => store.free_segments(user),
        "new" => nothing(store.open_new(user, entry, third)),
        "work" => nothing(store.open_work(user, entry, name)),
        "read" => nothing(store.open_read(user, entry, name)),
        "rename" => nothing(store.rename(user, entry, name)),
        "close" => nothing(store.close_private(user, entry)),
        "public" => nothing(store.close_public(user, entry)),
        "abandon" => nothing(store.abandon(user, entry)),
        "reset" => nothing(store.reset(user, entry)),
        "pointer" => store.new_pointer(user, entry, third),
        "delete" => nothing(store.delete_pointer(user, entry, third)),
        "write" => nothing(store.write(user, entry, third, fourth)),
        "next" => store.next(user, entry, third),
        "prev" => store.prev(user, entry, third),
        "write_signed" => nothing(store.write_signed(user, entry, third, fourth as i32)),
        "species" => store.species(user, entry).map(u32::from),
        "claim" => store.claim(user, entry),
        "permit" => store.permit(user, entry).map(u32::from),
        "symbol" => store.symbol(user, entry, third),
        "begin" => store.begin(user, entry),
        "end" => store.end(user, entry),
        "value" => store.value(user, entry, third),
        _ => unreachable!("{call} is no call"),
    }
}
