//! "Degrees below zero", through the door: signed numbers, the ends of their range, and which calls take which species.

#[path = "common/plain.rs"]
mod plain;

use dorrivand::{pointer, Refusal, Species, Store};
use plain::PLAIN;

const LEAST: i32 = -32_768;
const GREATEST: i32 = 32_767;

/// Just outside of the range, what 16 bits would take for other numbers, and the last of 32 bits.
const OUTSIDE: [i32; 8] = [LEAST - 1, GREATEST + 1, 65_535, 65_536, -65_536, -65_537, i32::MIN, i32::MAX];

const NO_POINTER: u32 = 9;

/// A store with a new file of temperatures at entry 0 of user 0.
fn store_with(segments: usize, degrees: &[i32]) -> Store<'static> {
    let mut store = Store::with_segments(segments).expect("there is a segment");
    assert_eq!(store.open_new(0, 0, Species::Signed16), Ok(()));
    for &number in degrees {
        assert_eq!(store.write_signed(0, 0, pointer::END, number), Ok(()));
    }
    store
}

/// Makes the call, which must be refused so and change no cell.
fn assert_refused<N>(store: &mut Store, refusal: Refusal, call: impl FnOnce(&mut Store) -> Result<N, Refusal>) {
    let before = (store.cells().to_vec(), store.tables().to_vec());
    assert_eq!(call(store).err(), Some(refusal));
    assert!(before == (store.cells().to_vec(), store.tables().to_vec()), "{refusal:?} changed a cell");
}

/// The file is of a species of the other kind.
fn assert_foreign<N>(store: &mut Store, call: impl FnOnce(&mut Store) -> Result<N, Refusal>) {
    assert_refused(store, Refusal::NoSuchSpecies, call);
}

#[test]
fn there_and_back() {
    let degrees = [LEAST, GREATEST, -1, 0, 1, -5];
    let mut store = store_with(1, &degrees);
    for number in degrees {
        assert_eq!(store.next_signed(0, 0, pointer::WORK), Ok(number));
    }
    assert_eq!(store.next_signed(0, 0, pointer::WORK), Err(Refusal::BeyondEnd));
    for number in degrees.into_iter().rev() {
        assert_eq!(store.prev_signed(0, 0, pointer::WORK), Ok(number));
    }
    assert_eq!(store.prev_signed(0, 0, pointer::WORK), Err(Refusal::BelowBegin));
}

#[test]
fn every_number_of_the_range() {
    let mut store = store_with(1, &[]);
    for number in LEAST..=GREATEST {
        assert_eq!(store.write_signed(0, 0, pointer::END, number), Ok(()));
        assert_eq!(store.prev_signed(0, 0, pointer::END), Ok(number));
    }
}

/// Through any pointer, "through pointer 0" too.
#[test]
fn outside_of_the_range() {
    let mut store = store_with(1, &[-1, 2]);
    for number in OUTSIDE {
        for pointer in [pointer::BEGIN, pointer::END, pointer::WORK] {
            assert_refused(&mut store, Refusal::TooWide, |store| store.write_signed(0, 0, pointer, number));
        }
    }
}

/// Two in a cell, the first one above, and a stretch of 128.
#[test]
fn cells_and_segments() {
    let mut store = store_with(2, &[LEAST, -1, GREATEST]);
    assert_eq!(store.cells()[..2], [0x8000_FFFF, 0x7FFF_0000]);
    assert_eq!(store.write_signed(0, 0, pointer::WORK, -2), Ok(()));
    assert_eq!(store.cells()[0], 0xFFFE_FFFF);
    assert_eq!(store.write_signed(0, 0, pointer::BEGIN, 5), Ok(()));
    assert_eq!((store.begin(0, 0), store.cells()[0]), (Ok(2), 0xFFFE_FFFF));

    for number in 4..=129 {
        assert_eq!(store.free_segments(0), Ok(1));
        assert_eq!(store.write_signed(0, 0, pointer::END, -number), Ok(()));
    }
    assert_eq!((store.free_segments(0), store.claim(0, 0)), (Ok(0), Ok(255)));
    assert_eq!(store.cells()[64], 0xFF7F_0000);
}

/// "those refuse species 0 to 5 with 19", "after 2 and before 4", 5 and 23.
#[test]
fn signed_calls_refuse_other_species() {
    for (species, _) in PLAIN {
        let mut store = Store::with_segments(1).expect("there is a segment");
        assert_eq!((store.open_new(0, 0, species), store.write(0, 0, pointer::END, 1)), (Ok(()), Ok(())));
        assert_eq!((store.rename(0, 0, "a"), store.close_private(0, 0)), (Ok(()), Ok(())));
        for open in [Store::open_work, Store::open_read] {
            assert_eq!((open(&mut store, 0, 0, "a"), store.reset(0, 0)), (Ok(()), Ok(())));
            for pointer in [pointer::BEGIN, pointer::END, pointer::WORK, NO_POINTER] {
                for number in [1, -1, GREATEST + 1] {
                    assert_foreign(&mut store, |store| store.write_signed(0, 0, pointer, number));
                }
                assert_foreign(&mut store, |store| store.next_signed(0, 0, pointer));
                assert_foreign(&mut store, |store| store.prev_signed(0, 0, pointer));
            }
            assert_eq!(store.abandon(0, 0), Ok(()));
        }
    }
}

/// "the plain ones refuse species 6 with 19", "so do P1's runs, at length 0 too."
#[test]
fn other_calls_refuse_signed_elements() {
    let mut store = store_with(1, &[1, 2]);
    assert_eq!((store.rename(0, 0, "a"), store.close_private(0, 0)), (Ok(()), Ok(())));
    for open in [Store::open_work, Store::open_read] {
        assert_eq!((open(&mut store, 0, 0, "a"), store.reset(0, 0)), (Ok(()), Ok(())));
        for pointer in [pointer::BEGIN, pointer::END, pointer::WORK, NO_POINTER] {
            for number in [1, 65_536] {
                assert_foreign(&mut store, |store| store.write(0, 0, pointer, number));
            }
            assert_foreign(&mut store, |store| store.next(0, 0, pointer));
            assert_foreign(&mut store, |store| store.prev(0, 0, pointer));
            for list in [&[][..], &[1], &[65_536, 1]] {
                assert_foreign(&mut store, |store| {
                    let (rest, stop) = store.write_run(0, 0, pointer, list);
                    assert_eq!(rest.as_ptr_range(), list.as_ptr_range());
                    stop.map_or(Ok(()), Err)
                });
                assert_foreign(&mut store, |store| {
                    let mut filled = list.to_vec();
                    let (count, stop) = store.fill_run(0, 0, pointer, &mut filled);
                    assert_eq!((count, &filled[..]), (0, list));
                    stop.map_or(Ok(()), Err)
                });
            }
        }
        assert_eq!(store.elements(0, 0, pointer::WORK).next(), Some(Err(Refusal::NoSuchSpecies)));
        assert_eq!(store.abandon(0, 0), Ok(()));
    }
}

/// 20, 1 and 2 before 19, whatever is open; 4, 5 and 7 before 23.
#[test]
fn what_is_judged_before() {
    let mut store = store_with(1, &[-1]);
    assert_eq!(store.open_new(0, 1, Species::Bits16), Ok(()));
    assert_refused(&mut store, Refusal::NoSuchUser, |store| store.write_signed(8, 1, NO_POINTER, 5));
    assert_refused(&mut store, Refusal::EntryNotOpen, |store| store.next_signed(0, 4, NO_POINTER));
    assert_refused(&mut store, Refusal::EntryNotOpen, |store| store.prev_signed(0, 2, NO_POINTER));
    assert_eq!(store.new_pointer(0, 0, pointer::END), Ok(3));
    assert_refused(&mut store, Refusal::NotAPointer, |store| store.write_signed(0, 0, NO_POINTER, GREATEST + 1));
    assert_refused(&mut store, Refusal::BeyondEnd, |store| store.write_signed(0, 0, 3, GREATEST + 1));
    store.tables_mut()[0] = 2;
    assert_refused(&mut store, Refusal::UnsoundTables, |store| store.write_signed(0, 1, NO_POINTER, 5));
    assert_refused(&mut store, Refusal::UnsoundTables, |store| store.next_signed(0, 1, NO_POINTER));
}

/// "Images may hold species 6." A neighbour reads what was written, and needs the work permit for what a landlord needs it.
#[test]
fn saved_and_read_by_another() {
    let mut store = store_with(1, &[3, -5]);
    assert_eq!((store.rename(0, 0, "frost"), store.close_public(0, 0)), (Ok(()), Ok(())));
    let mut image = vec![0; dorrivand::image_length()];
    assert_eq!((store.save(&mut image), store.fresh_start(), store.load(&image)), (Ok(()), Ok(()), Ok(())));
    assert_eq!((store.tidy(), store.open_read(5, 1, "frost")), (Ok(0), Ok(())));
    assert_eq!((store.species(5, 1), store.claim(5, 1)), (Ok(Species::Signed16), Ok(128)));
    assert_eq!((store.next_signed(5, 1, pointer::WORK), store.next_signed(5, 1, pointer::WORK)), (Ok(3), Ok(-5)));
    assert_refused(&mut store, Refusal::NoWorkPermit, |store| store.write_signed(5, 1, pointer::END, GREATEST + 1));
    assert_refused(&mut store, Refusal::NoWorkPermit, |store| store.next_signed(5, 1, pointer::BEGIN));
    assert_refused(&mut store, Refusal::NoWorkPermit, |store| store.prev_signed(5, 1, pointer::END));
    assert_eq!(store.prev_signed(5, 1, pointer::WORK), Ok(-5));
}
