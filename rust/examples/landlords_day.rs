//! A landlord's day. It prints every answer; examples/landlords_day.expected of the repository has them all.

use dorrivand::{pointer, Refusal, Species, Store};
use std::array;
use std::fmt::Display;

const READINGS: usize = 40;

fn part(words: &str) {
    println!("\n{words}");
}

/// The answer of a call that gives no number.
fn did(call: &str, answer: Result<(), Refusal>) {
    match answer {
        Ok(()) => println!("    {call:<30}done"),
        Err(refusal) => println!("    {call:<30}refused: {refusal}"),
    }
}

/// The answer of a call that gives a number.
fn got(call: &str, answer: Result<impl Display, Refusal>) {
    match answer {
        Ok(number) => println!("    {call:<30}{number}"),
        Err(refusal) => println!("    {call:<30}refused: {refusal}"),
    }
}

/// How many elements a run left or filled, and what stopped it.
fn ran(call: &str, elements: usize, stop: Option<Refusal>) {
    match stop {
        None => println!("    {call:<30}{elements}"),
        Some(refusal) => println!("    {call:<30}{elements}, stopped: {refusal}"),
    }
}

/// Reads a file from its begin to its end.
fn read_all(store: &mut Store, user: u32, name: &str) {
    did(&format!("open for reading \"{name}\""), store.open_read(user, 1, name));
    loop {
        let answer = store.next(user, 1, pointer::WORK);
        got("next", answer);
        if answer.is_err() {
            break;
        }
    }
    did("close private", store.close_private(user, 1));
}

/// The same of a file of temperatures.
fn read_degrees(store: &mut Store, user: u32, name: &str) {
    did(&format!("open for reading \"{name}\""), store.open_read(user, 1, name));
    loop {
        let answer = store.next_signed(user, 1, pointer::WORK);
        got("next", answer);
        if answer.is_err() {
            break;
        }
    }
    did("close private", store.close_private(user, 1));
}

fn make_two_files(store: &mut Store) {
    part("Landlord 2 makes a file of fault records for lift 7: numbers of 16 bits, private.");
    did("open new", store.open_new(2, 0, Species::Bits16));
    did("append 301", store.write(2, 0, pointer::END, 301));
    did("append 417", store.write(2, 0, pointer::END, 417));
    did("append 208", store.write(2, 0, pointer::END, 208));
    did("rename to \"lift 7\"", store.rename(2, 0, "lift 7"));
    did("close private", store.close_private(2, 0));

    part("Landlord 5 makes one for door 1: numbers of 8 bits, public. 300 is too wide, and is refused.");
    did("open new", store.open_new(5, 0, Species::Bits8));
    did("append 12", store.write(5, 0, pointer::END, 12));
    did("append 300", store.write(5, 0, pointer::END, 300));
    did("append 255", store.write(5, 0, pointer::END, 255));
    did("rename to \"door 1\"", store.rename(5, 0, "door 1"));
    did("close public", store.close_public(5, 0));
    got("free segments", store.free_segments(5));
}

fn read_and_be_refused(store: &mut Store) {
    part("Landlord 2 reads both files. Nobody but the owner works on a public one.");
    read_all(store, 2, "lift 7");
    read_all(store, 2, "door 1");
    did("open for work \"door 1\"", store.open_work(2, 0, "door 1"));

    part("The neighbour, landlord 5, asks for lift 7, which is not his and private. To him it looks absent, as lift 9 does.");
    did("open for reading \"lift 7\"", store.open_read(5, 0, "lift 7"));
    did("open for work \"lift 7\"", store.open_work(5, 0, "lift 7"));
    did("open for reading \"lift 9\"", store.open_read(5, 0, "lift 9"));
}

/// A file that is opened for work has its work pointer at the end.
fn replace_first(store: &mut Store, user: u32, entry: u32, number: u32) -> Result<(), Refusal> {
    store.reset(user, entry)?;
    store.write(user, entry, pointer::WORK, number)
}

fn edit(store: &mut Store) {
    part("Landlord 2 edits lift 7 and abandons the edit: nothing of it is left.");
    did("open for work \"lift 7\"", store.open_work(2, 0, "lift 7"));
    did("replace the first by 999", replace_first(store, 2, 0, 999));
    got("take the last away", store.prev(2, 0, pointer::END));
    did("append 111", store.write(2, 0, pointer::END, 111));
    got("free segments", store.free_segments(2));
    did("abandon", store.abandon(2, 0));
    got("free segments", store.free_segments(2));
    read_all(store, 2, "lift 7");

    part("Fault 301 is mended, and a new one comes in. This edit is closed.");
    did("open for work \"lift 7\"", store.open_work(2, 0, "lift 7"));
    got("take the first away", store.next(2, 0, pointer::BEGIN));
    did("append 522", store.write(2, 0, pointer::END, 522));
    got("begin", store.begin(2, 0));
    got("end", store.end(2, 0));
    did("close private", store.close_private(2, 0));
    got("free segments", store.free_segments(2));
}

fn write_and_fill_runs(store: &mut Store) {
    part("The sensors of lift 7 deliver forty readings together. One run writes them, and one reads them back.");
    let readings: [u32; READINGS] = array::from_fn(|n| 215 + 3 * n as u32);
    did("open new", store.open_new(2, 0, Species::Bits16));
    let (rest, stop) = store.write_run(2, 0, pointer::END, &readings);
    ran("append forty, left unwritten", rest.len(), stop);
    did("rename to \"motor 7\"", store.rename(2, 0, "motor 7"));
    did("close private", store.close_private(2, 0));
    got("free segments", store.free_segments(2));
    did("open for reading \"motor 7\"", store.open_read(2, 1, "motor 7"));
    let mut list = [0; READINGS];
    let (filled, stop) = store.fill_run(2, 1, pointer::WORK, &mut list);
    ran("fill forty, filled", filled, stop);
    println!("    {:<30}{}", "the first", list[0]);
    println!("    {:<30}{}", "the last", list[READINGS - 1]);
    println!("    {:<30}{}", "all as delivered", if list == readings { "yes" } else { "no" });
    let (filled, stop) = store.fill_run(2, 1, pointer::WORK, &mut list);
    ran("fill forty more, filled", filled, stop);
    did("close private", store.close_private(2, 1));
}

fn keep_temperatures(store: &mut Store) {
    part("The machine room of lift 7 is cold at night. Temperatures are signed, and have calls of their own.");
    did("open new", store.open_new(2, 0, Species::Signed16));
    did("append 3", store.write_signed(2, 0, pointer::END, 3));
    did("append -5", store.write_signed(2, 0, pointer::END, -5));
    did("append 40000", store.write_signed(2, 0, pointer::END, 40_000));
    got("next, by the plain call", store.next(2, 0, pointer::WORK));
    did("rename to \"frost 7\"", store.rename(2, 0, "frost 7"));
    did("close private", store.close_private(2, 0));
    got("free segments", store.free_segments(2));
    read_degrees(store, 2, "frost 7");
}

fn save_and_load(store: &mut Store) {
    part("In the evening the operator saves. After another fresh start the load brings all back.");
    let mut image = vec![0; dorrivand::image_length()];
    did("save", store.save(&mut image));
    println!("    {:<30}{:#010X}", "first cell of the image", image[0]);
    did("fresh start", store.fresh_start());
    did("open for reading \"lift 7\"", store.open_read(2, 0, "lift 7"));
    got("free segments", store.free_segments(2));
    did("load", store.load(&image));
    got("free segments", store.free_segments(2));
    read_all(store, 2, "lift 7");
    read_degrees(store, 2, "frost 7");
}

fn main() {
    println!("In the morning the operator starts a store of 16 segments.");
    let mut store = Store::from_cells(vec![0; 1024], vec![0; dorrivand::tables_length()]);
    did("fresh start", store.fresh_start());
    got("free segments", store.free_segments(0));
    make_two_files(&mut store);
    read_and_be_refused(&mut store);
    edit(&mut store);
    write_and_fill_runs(&mut store);
    keep_temperatures(&mut store);
    save_and_load(&mut store);
}
