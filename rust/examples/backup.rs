//! A store that outlives its program: the faults of landlord 2's lift 7, kept in one file (docs/OPERATING.md has its form).
//!
//!     backup FILE add NUMBER     one fault more
//!     backup FILE show           all faults
//!
//! FILE is replaced in one step, so that whoever stops the program, and when, leaves the backup before or the one after.
//! One that was made before version 7 is read as well, and replaced by one of today.
//! With `half` or `whole` as its last word the program waits to be killed when so much of the new file is written.

use dorrivand::{forms, image_length, old_image_length, pointer, tables_length, Refusal, Species, Store};
use std::env;
use std::error::Error;
use std::fs::{self, File};
use std::io::{self, Write};
use std::path::{Path, PathBuf};
use std::process::ExitCode;
use std::thread;

const STORE_LENGTH: usize = 1024;
const SEGMENTS: u32 = (STORE_LENGTH / 64) as u32;
const CELL_BYTES: usize = 4;
const USER: u32 = 2;
const ENTRY: u32 = 0;
const NAME: &str = "lift 7";

fn bytes_of(cells: &[u32]) -> Vec<u8> {
    cells.iter().flat_map(|cell| cell.to_le_bytes()).collect()
}

fn cells_of(bytes: &[u8]) -> Vec<u32> {
    let cells = bytes.chunks_exact(CELL_BYTES);
    cells.map(|cell| u32::from_le_bytes(cell.try_into().expect("four bytes"))).collect()
}

fn wait_if(asked: bool) -> io::Result<()> {
    if asked {
        println!("waiting");
        io::stdout().flush()?;
        loop {
            thread::park();
        }
    }
    Ok(())
}

fn back_up(store: &Store, path: &Path, stop: &str) -> Result<(), Box<dyn Error>> {
    // No call between the save and the copy of the cells: image and store are of one moment.
    let mut image = vec![0; image_length()];
    store.save(&mut image)?;
    let bytes = [bytes_of(&image), bytes_of(store.cells())].concat();
    let (first, second) = bytes.split_at(bytes.len() / 2);

    let mut new_path = path.as_os_str().to_owned();
    new_path.push(".new");
    let mut file = File::create(&new_path)?;
    file.write_all(first)?;
    wait_if(stop == "half")?;
    file.write_all(second)?;
    file.sync_all()?;
    wait_if(stop == "whole")?;
    fs::rename(&new_path, path)?;
    // A new name lasts when its folder is on the disk too.
    let folder = path.parent().filter(|folder| !folder.as_os_str().is_empty());
    File::open(folder.unwrap_or(Path::new(".")))?.sync_all()?;
    Ok(())
}

/// An image that was saved before version 7, which its length tells, is moved up.
fn image_of(saved: &[u32]) -> Result<Vec<u32>, Refusal> {
    if saved.len() != old_image_length() {
        return Ok(saved.to_vec());
    }
    let mut image = vec![0; image_length()];
    forms::up(saved, &mut image, SEGMENTS)?;
    Ok(image)
}

/// A backup that cannot be used is no reason for a fresh start: that is for the operator to say.
fn restored(path: &Path) -> Result<Store<'static>, Box<dyn Error>> {
    let bytes = match fs::read(path) {
        Err(error) if error.kind() == io::ErrorKind::NotFound => {
            let mut store = Store::from_cells(vec![0; STORE_LENGTH], vec![0; tables_length()]);
            store.fresh_start()?;
            return Ok(store);
        }
        read => read?,
    };
    let lengths = [image_length(), old_image_length()];
    let length = lengths.into_iter().find(|length| bytes.len() == CELL_BYTES * (length + STORE_LENGTH));
    let cells = cells_of(&bytes);
    let (saved, cells) = cells.split_at(length.ok_or("not the length of a backup")?);
    let mut store = Store::from_cells(cells.to_vec(), vec![0; tables_length()]);
    store.load(&image_of(saved)?)?;
    Ok(store)
}

fn add(store: &mut Store, number: u32) -> Result<(), Refusal> {
    match store.open_work(USER, ENTRY, NAME) {
        Err(Refusal::UnknownName) => {
            store.open_new(USER, ENTRY, Species::Bits32)?;
            store.rename(USER, ENTRY, NAME)?;
        }
        opened => opened?,
    }
    store.write(USER, ENTRY, pointer::END, number)?;
    store.close_private(USER, ENTRY)
}

fn show(store: &mut Store) -> Result<(), Refusal> {
    store.open_read(USER, ENTRY, NAME)?;
    for fault in store.elements(USER, ENTRY, pointer::WORK) {
        println!("{}", fault?);
    }
    Ok(())
}

fn run() -> Result<(), Box<dyn Error>> {
    let words: Vec<String> = env::args().skip(1).collect();
    let words: Vec<&str> = words.iter().map(String::as_str).collect();
    match words[..] {
        [path, "show"] => show(&mut restored(Path::new(path))?)?,
        [path, "add", number] | [path, "add", number, _] => {
            let path = PathBuf::from(path);
            let mut store = restored(&path)?;
            add(&mut store, number.parse()?)?;
            back_up(&store, &path, words.get(3).unwrap_or(&""))?;
        }
        _ => return Err("FILE add NUMBER, or FILE show, is wanted".into()),
    }
    Ok(())
}

/// A `main` that handed the error back would print `UnknownName`, and not its words.
fn main() -> ExitCode {
    match run() {
        Ok(()) => ExitCode::SUCCESS,
        Err(error) => {
            eprintln!("backup: {error}");
            ExitCode::FAILURE
        }
    }
}
