//! The proved code, of this build and of an earlier one, through the functions that their static libraries export. bench/run gives the earlier one's
//! exports names that begin with `before_`, and those that it lacks, or all where there is none, are `bench_absent`.
use crate::calls::{Call, Lent, ABSENT};

/// Takes the place of an export that the earlier build lacks: whatever it is asked, it has no answer. By the C convention a function may be handed arguments
/// that it does not look at.
#[no_mangle]
pub extern "C" fn bench_absent() -> i64 {
    ABSENT
}

macro_rules! exports {
    ($($name:ident($($argument:ty),*) -> $answer:ty;)*) => {
        /// The exports of a build.
        pub struct Build {
            $($name: unsafe extern "C" fn($($argument),*) -> $answer,)*
        }

        mod now {
            use super::*;
            extern "C" {
                $(#[link_name = concat!("dorrivand_", stringify!($name))]
                pub fn $name($(_: $argument),*) -> $answer;)*
            }
        }

        mod before {
            use super::*;
            extern "C" {
                $(#[link_name = concat!("before_dorrivand_", stringify!($name))]
                pub fn $name($(_: $argument),*) -> $answer;)*
            }
        }

        pub const NOW: Build = Build { $($name: now::$name,)* };
        pub const BEFORE: Build = Build { $($name: before::$name,)* };
    };
}

/// Cells, elements or bytes that are read, and cells or elements that are written; a length follows each but a run's place, which is one cell.
type Read<T> = *const T;
type Write = *mut u32;

// Where a request gives a call more arguments, they come last: an earlier build's function does not look at them.
exports! {
    tables_length() -> usize;
    image_length() -> usize;
    old_image_length() -> usize;
    save(Read<u32>, usize, Read<u32>, usize, Write, usize) -> u64;
    load(Read<u32>, usize, Write, usize, Read<u32>, usize) -> u64;
    up(Read<u32>, usize, Write, usize, u32) -> u64;
    down(Read<u32>, usize, Write, usize, u32) -> u64;
    tidy(Write, usize, Write, usize) -> u64;
    free(Read<u32>, usize, Read<u32>, usize, u32) -> u64;
    new(Read<u32>, usize, Write, usize, u32, u32, u32) -> u64;
    work(Read<u32>, usize, Write, usize, u32, u32, Read<u8>, usize) -> u64;
    read(Read<u32>, usize, Write, usize, u32, u32, Read<u8>, usize) -> u64;
    rename(Read<u32>, usize, Write, usize, u32, u32, Read<u8>, usize) -> u64;
    close(Read<u32>, usize, Write, usize, u32, u32) -> u64;
    public(Read<u32>, usize, Write, usize, u32, u32) -> u64;
    abandon(Read<u32>, usize, Write, usize, u32, u32) -> u64;
    pointer(Read<u32>, usize, Write, usize, u32, u32, u32) -> u64;
    write(Write, usize, Write, usize, u32, u32, u32, u32) -> u64;
    next(Read<u32>, usize, Write, usize, u32, u32, u32) -> u64;
    prev(Read<u32>, usize, Write, usize, u32, u32, u32) -> u64;
    write_signed(Write, usize, Write, usize, u32, u32, u32, i32) -> u64;
    next_signed(Read<u32>, usize, Write, usize, u32, u32, u32) -> i64;
    prev_signed(Read<u32>, usize, Write, usize, u32, u32, u32) -> i64;
    value(Read<u32>, usize, Read<u32>, usize, u32, u32, u32) -> u64;
    claim(Read<u32>, usize, Read<u32>, usize, u32, u32) -> u64;
    write_run(Write, usize, Write, usize, u32, u32, u32, Read<u32>, usize, Write) -> u64;
    fill_run(Read<u32>, usize, Write, usize, u32, u32, u32, Write, usize, Write) -> u64;
    measure_sound(Read<u32>, usize, usize) -> u32;
    measure_free_count(Read<u32>, usize, usize) -> u32;
    measure_lowest_free(Read<u32>, usize, usize) -> u32;
}

// SAFETY, of all here: live slices that do not overlap, each as a pointer and its length, mutable where the export writes; the exports ask
// nothing more of their callers.
impl Build {
    /// The one length of its tables, and of its images.
    pub fn lengths(&self) -> (usize, usize) {
        unsafe { ((self.tables_length)(), (self.image_length)()) }
    }

    /// That of its images of form 1.
    pub fn old_length(&self) -> usize {
        unsafe { (self.old_image_length)() }
    }

    /// 1 where the tables are sound beside a store of so many cells, else 0.
    pub fn sound(&self, tables: &[u32], cells: usize) -> u32 {
        unsafe { (self.measure_sound)(tables.as_ptr(), tables.len(), cells) }
    }

    pub fn free_count(&self, tables: &[u32], cells: usize) -> u32 {
        unsafe { (self.measure_free_count)(tables.as_ptr(), tables.len(), cells) }
    }

    pub fn lowest_free(&self, tables: &[u32], cells: usize) -> u32 {
        unsafe { (self.measure_lowest_free)(tables.as_ptr(), tables.len(), cells) }
    }

    fn perform(&self, call: &Call, lent: &mut Lent) -> i64 {
        let Lent { store, tables, image, old, list, place } = lent;
        macro_rules! door {
            (const $name:ident $(, $more:expr)*) => {
                (unsafe { (self.$name)(store.as_ptr(), store.len(), tables.as_ptr(), tables.len() $(, $more)*) }) as i64
            };
            (mut $name:ident $(, $more:expr)*) => {
                (unsafe { (self.$name)(store.as_ptr(), store.len(), tables.as_mut_ptr(), tables.len() $(, $more)*) }) as i64
            };
            (both $name:ident $(, $more:expr)*) => {
                (unsafe { (self.$name)(store.as_mut_ptr(), store.len(), tables.as_mut_ptr(), tables.len() $(, $more)*) }) as i64
            };
        }
        match *call {
            Call::Save => door!(const save, image.as_mut_ptr(), image.len()),
            Call::Load => door!(mut load, image.as_ptr(), image.len()),
            Call::Up(segments) => moved(self.up, old, image, segments),
            Call::Down(segments) => moved(self.down, image, old, segments),
            Call::Tidy => door!(both tidy),
            Call::Free(user) => door!(const free, user),
            Call::New((user, entry), species) => door!(mut new, user, entry, species),
            Call::Work((user, entry), ref name) => door!(mut work, user, entry, name.as_ptr(), name.len()),
            Call::Read((user, entry), ref name) => door!(mut read, user, entry, name.as_ptr(), name.len()),
            Call::Rename((user, entry), ref name) => door!(mut rename, user, entry, name.as_ptr(), name.len()),
            Call::Close((user, entry)) => door!(mut close, user, entry),
            Call::Public((user, entry)) => door!(mut public, user, entry),
            Call::Abandon((user, entry)) => door!(mut abandon, user, entry),
            Call::Pointer((user, entry), pointer) => door!(mut pointer, user, entry, pointer),
            Call::Write((user, entry), pointer, number) => door!(both write, user, entry, pointer, number),
            Call::Next((user, entry), pointer) => door!(mut next, user, entry, pointer),
            Call::Prev((user, entry), pointer) => door!(mut prev, user, entry, pointer),
            Call::WriteSigned((user, entry), pointer, number) => door!(both write_signed, user, entry, pointer, number),
            Call::NextSigned((user, entry), pointer) => door!(mut next_signed, user, entry, pointer),
            Call::PrevSigned((user, entry), pointer) => door!(mut prev_signed, user, entry, pointer),
            Call::Value((user, entry), pointer) => door!(const value, user, entry, pointer),
            Call::Claim((user, entry)) => door!(const claim, user, entry),
            Call::WriteRun((user, entry), pointer, ref list) => {
                door!(both write_run, user, entry, pointer, list.as_ptr(), list.len(), place)
            }
            Call::FillRun((user, entry), pointer, length) => {
                let list = &mut list[..length];
                door!(mut fill_run, user, entry, pointer, list.as_mut_ptr(), list.len(), place)
            }
        }
    }
}

/// One image is read and the other written; nothing else is lent to a move.
type Move = unsafe extern "C" fn(Read<u32>, usize, Write, usize, u32) -> u64;

fn moved(export: Move, read: &[u32], written: &mut [u32], segments: u32) -> i64 {
    (unsafe { export(read.as_ptr(), read.len(), written.as_mut_ptr(), written.len(), segments) }) as i64
}

/// This build makes a call.
pub fn now(call: &Call, lent: &mut Lent) -> i64 {
    NOW.perform(call, lent)
}

/// The earlier build makes a call.
pub fn before(call: &Call, lent: &mut Lent) -> i64 {
    BEFORE.perform(call, lent)
}

/// The lengths of the earlier build's tables and images, where there is one.
pub fn lengths_before() -> Option<(usize, usize)> {
    Some(BEFORE.lengths()).filter(|lengths| lengths.0 != ABSENT as usize)
}
