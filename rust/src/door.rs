//! The library's exports as safe functions over slices: the only place where they are declared and called.

use crate::answer::{answer, signed_answer, Answer, SignedAnswer};

/// For each line a safe function and the declaration of its export, which takes a slice as its pointer and its length, and
/// a lent place as its pointer.
/// The lists in brackets grow by one argument a turn: the function's parameters, the export's, and what is passed. A
/// result of 64 bits is an answer, any other is what it is.
macro_rules! door {
    ($($name:ident = $export:ident($($arguments:tt)*) -> $result:ident;)*) => {
        $(door!(@ $name $export $result [] [] [] $($arguments)*,);)*
    };
    (@ $name:ident $export:ident $result:ident [$($taken:tt)*] [$($declared:tt)*] [$($passed:tt)*]
        $slice:ident: &[$element:ty], $($rest:tt)*) => {
        door!(@ $name $export $result [$($taken)* $slice: &[$element],] [$($declared)* _: *const $element, _: usize,]
            [$($passed)* $slice.as_ptr(), $slice.len(),] $($rest)*);
    };
    (@ $name:ident $export:ident $result:ident [$($taken:tt)*] [$($declared:tt)*] [$($passed:tt)*]
        $slice:ident: &mut [$element:ty], $($rest:tt)*) => {
        door!(@ $name $export $result [$($taken)* $slice: &mut [$element],] [$($declared)* _: *mut $element, _: usize,]
            [$($passed)* $slice.as_mut_ptr(), $slice.len(),] $($rest)*);
    };
    (@ $name:ident $export:ident $result:ident [$($taken:tt)*] [$($declared:tt)*] [$($passed:tt)*]
        $place:ident: &mut u32, $($rest:tt)*) => {
        door!(@ $name $export $result [$($taken)* $place: &mut u32,] [$($declared)* _: *mut u32,] [$($passed)* $place,]
            $($rest)*);
    };
    (@ $name:ident $export:ident $result:ident [$($taken:tt)*] [$($declared:tt)*] [$($passed:tt)*]
        $number:ident: $kind:ident, $($rest:tt)*) => {
        door!(@ $name $export $result [$($taken)* $number: $kind,] [$($declared)* _: $kind,] [$($passed)* $number,]
            $($rest)*);
    };
    (@ $name:ident $export:ident $result:ident [$($taken:tt)*] [$($declared:tt)*] [$($passed:tt)*] $(,)?) => {
        pub fn $name($($taken)*) -> door!(type of $result) {
            extern "C" {
                fn $export($($declared)*) -> $result;
            }
            // SAFETY: the export asks that each pointer points to as many elements as the length after it says, a
            // place's to one, and that they do not overlap where one is written to. Both hold of borrowed slices and
            // places, of which those that are written to are borrowed mutably. It writes to no other, and asks nothing of
            // numbers, lengths and contents.
            let given = unsafe { $export($($passed)*) };
            door!(value of $result given)
        }
    };
    (type of u64) => { Answer };
    (type of i64) => { SignedAnswer };
    (type of $result:ident) => { $result };
    (value of u64 $given:ident) => { answer($given) };
    (value of i64 $given:ident) => { signed_answer($given) };
    (value of $result:ident $given:ident) => { $given };
}

door! {
    version = dorrivand_version() -> u32;
    tables_length = dorrivand_tables_length() -> usize;
    image_length = dorrivand_image_length() -> usize;
    old_image_length = dorrivand_old_image_length() -> usize;
    name_of = dorrivand_name_of(name: &[u8], symbols: &mut [u32]) -> usize;
    fresh = dorrivand_fresh(store: &[u32], tables: &mut [u32]) -> u64;
    save = dorrivand_save(store: &[u32], tables: &[u32], image: &mut [u32]) -> u64;
    load = dorrivand_load(store: &[u32], tables: &mut [u32], image: &[u32]) -> u64;
    up = dorrivand_up(old: &[u32], image: &mut [u32], segments: u32) -> u64;
    down = dorrivand_down(image: &[u32], old: &mut [u32], segments: u32) -> u64;
    tidy = dorrivand_tidy(store: &mut [u32], tables: &mut [u32]) -> u64;
    free = dorrivand_free(store: &[u32], tables: &[u32], user: u32) -> u64;
    new = dorrivand_new(store: &[u32], tables: &mut [u32], user: u32, entry: u32, species: u32) -> u64;
    work = dorrivand_work(store: &[u32], tables: &mut [u32], user: u32, entry: u32, name: &[u8]) -> u64;
    read = dorrivand_read(store: &[u32], tables: &mut [u32], user: u32, entry: u32, name: &[u8]) -> u64;
    rename = dorrivand_rename(store: &[u32], tables: &mut [u32], user: u32, entry: u32, name: &[u8]) -> u64;
    close = dorrivand_close(store: &[u32], tables: &mut [u32], user: u32, entry: u32) -> u64;
    public = dorrivand_public(store: &[u32], tables: &mut [u32], user: u32, entry: u32) -> u64;
    abandon = dorrivand_abandon(store: &[u32], tables: &mut [u32], user: u32, entry: u32) -> u64;
    reset = dorrivand_reset(store: &[u32], tables: &mut [u32], user: u32, entry: u32) -> u64;
    pointer = dorrivand_pointer(store: &[u32], tables: &mut [u32], user: u32, entry: u32, pointer: u32) -> u64;
    delete = dorrivand_delete(store: &[u32], tables: &mut [u32], user: u32, entry: u32, pointer: u32) -> u64;
    write = dorrivand_write(store: &mut [u32], tables: &mut [u32], user: u32, entry: u32, pointer: u32, number: u32) -> u64;
    next = dorrivand_next(store: &[u32], tables: &mut [u32], user: u32, entry: u32, pointer: u32) -> u64;
    prev = dorrivand_prev(store: &[u32], tables: &mut [u32], user: u32, entry: u32, pointer: u32) -> u64;
    write_signed = dorrivand_write_signed(store: &mut [u32], tables: &mut [u32], user: u32, entry: u32, pointer: u32,
        number: i32) -> u64;
    next_signed = dorrivand_next_signed(store: &[u32], tables: &mut [u32], user: u32, entry: u32, pointer: u32) -> i64;
    prev_signed = dorrivand_prev_signed(store: &[u32], tables: &mut [u32], user: u32, entry: u32, pointer: u32) -> i64;
    write_run = dorrivand_write_run(store: &mut [u32], tables: &mut [u32], user: u32, entry: u32, pointer: u32,
        list: &[u32], place: &mut u32) -> usize;
    fill_run = dorrivand_fill_run(store: &[u32], tables: &mut [u32], user: u32, entry: u32, pointer: u32,
        list: &mut [u32], place: &mut u32) -> usize;
    species = dorrivand_species(store: &[u32], tables: &[u32], user: u32, entry: u32) -> u64;
    claim = dorrivand_claim(store: &[u32], tables: &[u32], user: u32, entry: u32) -> u64;
    permit = dorrivand_permit(store: &[u32], tables: &[u32], user: u32, entry: u32) -> u64;
    symbol = dorrivand_symbol(store: &[u32], tables: &[u32], user: u32, entry: u32, k: u32) -> u64;
    begin = dorrivand_begin(store: &[u32], tables: &[u32], user: u32, entry: u32) -> u64;
    end = dorrivand_end(store: &[u32], tables: &[u32], user: u32, entry: u32) -> u64;
    value = dorrivand_value(store: &[u32], tables: &[u32], user: u32, entry: u32, pointer: u32) -> u64;
}
