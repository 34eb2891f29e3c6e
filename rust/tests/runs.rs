//! "Runs of elements", through the door: what is left, what is filled, what stops a run, and that it is single calls.

#[path = "common/far.rs"]
mod far;
#[path = "common/plain.rs"]
mod plain;

use dorrivand::{pointer, Refusal, Species, Store};
use far::{move_empty_file, GREATEST_END};
use plain::PLAIN;

/// A store with a new file of this species at entry 0 of user 0.
fn store_with_file(segments: usize, species: Species) -> Store<'static> {
    let mut store = Store::with_segments(segments).expect("there is a segment");
    assert_eq!(store.open_new(0, 0, species), Ok(()));
    store
}

/// The same with these elements.
fn store_with(segments: usize, species: Species, elements: &[u32]) -> Store<'static> {
    let mut store = store_with_file(segments, species);
    assert_eq!(store.write_run(0, 0, pointer::END, elements), (&[][..], None));
    store
}

fn readings(count: u32) -> Vec<u32> {
    fitting(u32::MAX, count)
}

/// So many numbers up to the greatest of a species.
fn fitting(greatest: u32, count: u32) -> Vec<u32> {
    (0..count).map(|n| n.wrapping_mul(0x9E37_79B9) >> greatest.leading_zeros()).collect()
}

#[test]
fn forty_readings_there_and_back() {
    let written = readings(40);
    let mut store = store_with(1, Species::Bits32, &written);
    assert_eq!(store.end(0, 0), Ok(41));
    let mut read = [0; 40];
    assert_eq!(store.fill_run(0, 0, pointer::WORK, &mut read), (40, None));
    assert_eq!(read[..], written);
    assert_eq!(store.value(0, 0, pointer::WORK), Ok(41));
}

#[test]
fn the_rest_is_a_part_of_the_callers_own_list() {
    let mut store = store_with_file(1, Species::Bits32);
    let list = readings(70);
    let (rest, stop) = store.write_run(0, 0, pointer::END, &list);
    assert_eq!(stop, Some(Refusal::NoRoom));
    assert_eq!(rest.as_ptr_range(), list[64..].as_ptr_range());

    // It outlives the store's borrow, and the store.
    assert_eq!(store.end(0, 0), Ok(65));
    drop(store);
    assert_eq!(rest, &list[64..]);

    let (nothing, _) = store_with_file(2, Species::Bits32).write_run(0, 0, pointer::END, &list);
    assert_eq!(nothing.as_ptr_range(), list[70..].as_ptr_range());
}

#[test]
fn stopped_by_the_end() {
    let mut store = store_with(1, Species::Bits8, &[1, 2, 3]);
    assert_eq!(store.next(0, 0, pointer::WORK), Ok(1));
    let (rest, stop) = store.write_run(0, 0, pointer::WORK, &[12, 13, 14, 15]);
    assert_eq!((rest, stop), (&[14, 15][..], Some(Refusal::BeyondEnd)));

    // The places beyond the third stay.
    let own = store.new_pointer(0, 0, pointer::BEGIN).expect("a pointer is left");
    let mut list = [7; 5];
    assert_eq!(store.fill_run(0, 0, own, &mut list), (3, Some(Refusal::BeyondEnd)));
    assert_eq!(list, [1, 12, 13, 7, 7]);
}

#[test]
fn through_the_begin_elements_leave() {
    let mut store = store_with(3, Species::Bits32, &readings(130));
    assert_eq!(store.write_run(0, 0, pointer::BEGIN, &[0; 64]), (&[][..], None));
    assert_eq!((store.begin(0, 0), store.free_segments(0)), (Ok(65), Ok(1)));
    let mut list = [7; 67];
    assert_eq!(store.fill_run(0, 0, pointer::BEGIN, &mut list), (66, Some(Refusal::BeyondEnd)));
    assert_eq!((&list[..66], list[66]), (&readings(130)[64..], 7));
    assert_eq!((store.begin(0, 0), store.free_segments(0)), (Ok(131), Ok(3)));
}

#[test]
fn stopped_by_room_positions_and_a_33rd_segment() {
    let mut full = store_with_file(33, Species::Bits32);
    let list = readings(2050);
    let (rest, stop) = full.write_run(0, 0, pointer::END, &list);
    assert_eq!((rest, stop), (&list[2048..], Some(Refusal::TooManySegments)));

    let mut store = store_with_file(2, Species::Bits32);
    move_empty_file(&mut store, GREATEST_END - 2);
    let (rest, stop) = store.write_run(0, 0, pointer::END, &[1, 2, 3]);
    assert_eq!((rest, stop), (&[3][..], Some(Refusal::PositionsUsedUp)));

    // A write into a record's segment needs another one, and there is none.
    let mut store = store_with(1, Species::Bits32, &[1, 2]);
    assert_eq!((store.rename(0, 0, "a"), store.close_private(0, 0)), (Ok(()), Ok(())));
    assert_eq!((store.open_work(0, 0, "a"), store.reset(0, 0)), (Ok(()), Ok(())));
    let (rest, stop) = store.write_run(0, 0, pointer::WORK, &[3]);
    assert_eq!((rest, stop), (&[3][..], Some(Refusal::NoRoom)));
}

/// "a list of length 0 still gets refusals 20, 1, 2, 4, 5 where they apply", and no later one.
#[test]
fn empty_lists_are_judged() {
    let mut store = store_with(1, Species::Bits32, &[1]);
    let mut judged = |user, entry, pointer| {
        let (rest, stop) = store.write_run(user, entry, pointer, &[]);
        let filled = store.fill_run(user, entry, pointer, &mut []);
        assert_eq!((rest, filled.0), (&[][..], 0));
        [stop, filled.1].map(|stop| stop.map_or(0, Refusal::number))
    };
    assert_eq!(judged(8, 4, 8), [1, 1]);
    assert_eq!(judged(0, 4, 8), [2, 2]);
    assert_eq!(judged(0, 1, 8), [2, 2]);
    assert_eq!(judged(0, 0, 3), [4, 4]);
    // A next through the end would be beyond it.
    assert_eq!(judged(0, 0, pointer::END), [0, 0]);
    assert_eq!((store.rename(0, 0, "a"), store.close_private(0, 0)), (Ok(()), Ok(())));
    assert_eq!(store.open_read(0, 0, "a"), Ok(()));
    let mut judged = |pointer| {
        let (_, write) = store.write_run(0, 0, pointer, &[]);
        let (_, fill) = store.fill_run(0, 0, pointer, &mut []);
        [write, fill].map(|stop| stop.map_or(0, Refusal::number))
    };
    assert_eq!(judged(pointer::BEGIN), [5, 5]);
    assert_eq!(judged(pointer::WORK), [5, 0]);
    store.tables_mut()[0] = 2;
    assert_eq!(store.write_run(8, 4, 8, &[]), (&[][..], Some(Refusal::UnsoundTables)));
    assert_eq!(store.fill_run(8, 4, 8, &mut []), (0, Some(Refusal::UnsoundTables)));
}

/// Writes the list by single calls: how many elements are left, and what stopped it.
fn written_singly(store: &mut Store, pointer: u32, list: &[u32]) -> (usize, Option<Refusal>) {
    for (written, &number) in list.iter().enumerate() {
        if let Err(refusal) = store.write(0, 0, pointer, number) {
            return (list.len() - written, Some(refusal));
        }
    }
    (0, None)
}

/// Fills the list by single calls: how many places are filled, and what stopped it.
fn filled_singly(store: &mut Store, pointer: u32, list: &mut [u32]) -> (usize, Option<Refusal>) {
    for (filled, place) in list.iter_mut().enumerate() {
        match store.next(0, 0, pointer) {
            Ok(number) => *place = number,
            Err(refusal) => return (filled, Some(refusal)),
        }
    }
    (list.len(), None)
}

/// The same runs and single calls over two stores of these elements, through each standard pointer.
fn assert_as_single_calls(species: Species, elements: &[u32], list: &[u32]) {
    let (mut run, mut singly) = (store_with(9, species, elements), store_with(9, species, elements));
    for pointer in [pointer::END, pointer::WORK, pointer::BEGIN] {
        let (rest, stop) = run.write_run(0, 0, pointer, list);
        assert_eq!((rest.len(), stop), written_singly(&mut singly, pointer, list));
        let (mut one, mut another) = (list.to_vec(), list.to_vec());
        let filled = run.fill_run(0, 0, pointer, &mut one);
        assert_eq!((filled, &one), (filled_singly(&mut singly, pointer, &mut another), &another));
        let (run, singly) = ((run.cells(), run.tables()), (singly.cells(), singly.tables()));
        assert!(run == singly, "{species:?}, {} elements through {pointer}", list.len());
    }
}

#[test]
fn the_outcome_is_that_of_single_calls() {
    for (species, greatest) in PLAIN {
        for length in [1, 63, 300, 5000] {
            let (elements, mut list) = (fitting(greatest, 200), fitting(greatest, length));
            assert_as_single_calls(species, &elements, &list);
            // Too wide for all but 32 bits.
            list[length as usize / 2] = u32::MAX;
            assert_as_single_calls(species, &elements, &list);
        }
    }
}
