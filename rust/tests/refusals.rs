//! Each refusal once, with its number, and that it leaves every cell as it stood.

use dorrivand::{forms, pointer, Refusal, Species, Store};

/// The begin and the end of the record at place 0 in the tables (docs/TABLES.md).
const RECORD_BEGIN: usize = 1 + 16;
const RECORD_END: usize = 1 + 17;

/// What is needed for most refusals: of user 0 a private file "mine" and a public file "ours", of user 1 a private "his".
fn three_files() -> Store<'static> {
    let mut store = Store::with_segments(3).expect("there is a segment");
    for (user, name, public) in [(0, "mine", false), (0, "ours", true), (1, "his", false)] {
        assert_eq!(store.open_new(user, 0, Species::Bits32), Ok(()));
        assert_eq!(store.write(user, 0, pointer::END, 7), Ok(()));
        assert_eq!(store.rename(user, 0, name), Ok(()));
        let closed = if public { store.close_public(user, 0) } else { store.close_private(user, 0) };
        assert_eq!(closed, Ok(()));
    }
    store
}

/// Makes the call, which must be refused with this number and change no cell.
fn refused<N>(store: &mut Store, number: u32, call: impl FnOnce(&mut Store) -> Result<N, Refusal>) {
    let before = (store.cells().to_vec(), store.tables().to_vec());
    let given = call(store).err().map(Refusal::number);
    assert_eq!(given, Some(number));
    assert!(before == (store.cells().to_vec(), store.tables().to_vec()), "refusal {number} changed a cell");
}

/// Makes both runs with one element, which must be stopped by this number and change no cell.
fn stopped(store: &mut Store, number: u32, (user, entry): (u32, u32), pointer: u32) {
    refused(store, number, |store| {
        let (rest, stop) = store.write_run(user, entry, pointer, &[8]);
        assert_eq!(rest, [8]);
        stop.map_or(Ok(()), Err)
    });
    refused(store, number, |store| {
        let mut list = [9];
        let (filled, stop) = store.fill_run(user, entry, pointer, &mut list);
        assert_eq!((filled, list), (0, [9]));
        stop.map_or(Ok(()), Err)
    });
}

#[test]
fn users_entries_and_pointers() {
    let mut store = three_files();
    refused(&mut store, 1, |store| store.free_segments(8));
    refused(&mut store, 1, |store| store.reset(u32::MAX, 9));
    refused(&mut store, 2, |store| store.reset(0, 0));
    refused(&mut store, 2, |store| store.open_new(0, 4, 9));
    assert_eq!(store.open_work(0, 0, "mine"), Ok(()));
    refused(&mut store, 3, |store| store.open_new(0, 0, 9));
    refused(&mut store, 4, |store| store.value(0, 0, 3));
    refused(&mut store, 4, |store| store.delete_pointer(0, 0, pointer::WORK));
    for name in 3..=7 {
        assert_eq!(store.new_pointer(0, 0, pointer::WORK), Ok(name));
    }
    refused(&mut store, 21, |store| store.new_pointer(0, 0, pointer::WORK));
}

#[test]
fn opening() {
    let mut store = three_files();
    refused(&mut store, 11, |store| store.open_read(0, 0, "nobodys"));
    refused(&mut store, 11, |store| store.open_read(0, 0, "his"));
    refused(&mut store, 11, |store| store.open_work(0, 0, "his"));
    refused(&mut store, 13, |store| store.open_work(1, 0, "ours"));
    refused(&mut store, 15, |store| store.open_work(1, 0, "\n"));
    refused(&mut store, 19, |store| store.open_new(1, 0, 7));
    refused(&mut store, 19, |store| store.open_new(1, 0, u32::MAX));
    assert_eq!(store.open_read(1, 0, "ours"), Ok(()));
    refused(&mut store, 14, |store| store.open_work(0, 0, "ours"));
}

#[test]
fn access() {
    let mut store = three_files();
    assert_eq!(store.open_read(0, 1, "ours"), Ok(()));
    refused(&mut store, 5, |store| store.write(0, 1, pointer::END, 7));
    refused(&mut store, 5, |store| store.rename(0, 1, "a"));
    assert_eq!((store.open_work(0, 0, "mine"), store.reset(0, 0)), (Ok(()), Ok(())));
    refused(&mut store, 6, |store| store.prev(0, 0, pointer::WORK));
    refused(&mut store, 9, |store| store.write(0, 0, pointer::WORK, 8));
    assert_eq!(store.next(0, 0, pointer::WORK), Ok(7));
    refused(&mut store, 7, |store| store.next(0, 0, pointer::WORK));
}

#[test]
fn numbers_and_kinds() {
    let mut store = three_files();
    assert_eq!((store.open_new(0, 0, Species::Bits16), store.open_new(0, 1, Species::Signed16)), (Ok(()), Ok(())));
    refused(&mut store, 23, |store| store.write(0, 0, pointer::END, 65_536));
    refused(&mut store, 23, |store| store.write_signed(0, 1, pointer::END, 32_768));
    refused(&mut store, 9, |store| store.write_signed(0, 1, pointer::END, 32_767));
    refused(&mut store, 19, |store| store.write_signed(0, 0, pointer::END, 7));
    refused(&mut store, 19, |store| store.next_signed(0, 0, pointer::WORK));
    refused(&mut store, 19, |store| store.prev_signed(0, 0, pointer::WORK));
    refused(&mut store, 19, |store| store.write(0, 1, pointer::END, 7));
    refused(&mut store, 19, |store| store.next(0, 1, pointer::WORK));
    refused(&mut store, 19, |store| store.prev(0, 1, pointer::WORK));
    stopped(&mut store, 19, (0, 1), pointer::END);
}

/// The same refusals stop a run of one element at once: the rest is the whole list, and no place is filled.
#[test]
fn runs_of_one_element() {
    let mut store = three_files();
    stopped(&mut store, 1, (8, 0), pointer::END);
    stopped(&mut store, 2, (0, 0), pointer::END);
    stopped(&mut store, 2, (0, 4), pointer::END);
    assert_eq!(store.open_read(0, 1, "ours"), Ok(()));
    stopped(&mut store, 4, (0, 1), 3);
    stopped(&mut store, 5, (0, 1), pointer::BEGIN);
    assert_eq!((store.open_work(0, 0, "mine"), store.reset(0, 0)), (Ok(()), Ok(())));
    assert_eq!(store.new_pointer(0, 0, pointer::END), Ok(3));
    stopped(&mut store, 7, (0, 0), 3);
    refused(&mut store, 9, |store| store.write_run(0, 0, pointer::WORK, &[8]).1.map_or(Ok(()), Err));
    assert_eq!(store.next(0, 0, pointer::BEGIN), Ok(7));
    stopped(&mut store, 6, (0, 0), pointer::WORK);
    store.tables_mut()[0] = 4;
    stopped(&mut store, 20, (0, 0), pointer::WORK);
}

#[test]
fn closing() {
    let mut store = three_files();
    assert_eq!(store.open_work(0, 0, "mine"), Ok(()));
    assert_eq!(store.rename(0, 0, "ours"), Ok(()));
    refused(&mut store, 16, |store| store.close_private(0, 0));
    assert_eq!(store.rename(0, 0, ""), Ok(()));
    refused(&mut store, 18, |store| store.close_public(0, 0));
}

#[test]
fn the_65th_file() {
    let mut store = Store::with_segments(1).expect("there is a segment");
    for number in 0..64 {
        assert_eq!(store.open_new(0, 0, Species::Bits1), Ok(()));
        assert_eq!(store.rename(0, 0, number.to_string()), Ok(()));
        assert_eq!(store.close_private(0, 0), Ok(()));
    }
    assert_eq!(store.open_new(0, 0, Species::Bits1), Ok(()));
    assert_eq!(store.rename(0, 0, "64"), Ok(()));
    refused(&mut store, 17, |store| store.close_private(0, 0));
}

#[test]
fn tables_and_images() {
    let mut store = three_files();
    let mut image = vec![5; 960];
    refused(&mut store, 22, |store| store.save(&mut image));
    assert!(image == [5; 960]);
    refused(&mut store, 22, |store| store.load(&[0; 961]));
    store.tables_mut()[0] = 4;
    refused(&mut store, 20, |store| store.free_segments(8));
    refused(&mut store, 20, |store| store.save(&mut image));
    assert!(image == [5; 960]);
}

#[test]
fn moves_of_images() {
    let mut store = three_files();
    let (mut image, mut old) = (vec![5; 961], vec![5; 897]);
    // "mine" is at place 0: its record says one position, in segment 0, now at another stretch.
    (store.tables_mut()[RECORD_BEGIN], store.tables_mut()[RECORD_END]) = (16_777_217, 16_777_218);
    assert_eq!(store.save(&mut image), Ok(()));
    refused(&mut store, 24, |_| forms::down(&image, &mut old, 3));
    refused(&mut store, 22, |_| forms::down(&image, &mut old, 2));
    assert!(old == [5; 897]);
    refused(&mut store, 22, |_| forms::up(&old, &mut image, 3));
    assert_eq!(image[0], 0x0200_6000);
}
