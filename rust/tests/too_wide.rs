//! "No silent cutting", through the door: which numbers are too wide, what is judged before and after, and where a run stops.

#[path = "common/far.rs"]
mod far;
#[path = "common/plain.rs"]
mod plain;

use dorrivand::{pointer, Refusal, Species, Store};
use far::{move_empty_file, GREATEST_END};
use plain::PLAIN;

/// A store with a new file of this species at entry 0 of user 0, and these elements.
fn store_with(segments: usize, species: Species, elements: &[u32]) -> Store<'static> {
    let mut store = Store::with_segments(segments).expect("there is a segment");
    assert_eq!(store.open_new(0, 0, species), Ok(()));
    assert_eq!(store.write_run(0, 0, pointer::END, elements), (&[][..], None));
    store
}

/// Writes by a single call and by a run of one element, both of which must be refused so and change no cell.
fn assert_refused(store: &mut Store, pointer: u32, number: u32, refusal: Refusal) {
    let before = (store.cells().to_vec(), store.tables().to_vec());
    assert_eq!(store.write(0, 0, pointer, number), Err(refusal), "{number} through {pointer}");
    assert_eq!(store.write_run(0, 0, pointer, &[number]), (&[number][..], Some(refusal)), "{number} through {pointer}");
    assert!(before == (store.cells().to_vec(), store.tables().to_vec()), "{number} through {pointer} changed a cell");
}

/// The first, the last, and some that would fit if they were cut.
fn numbers_too_wide(greatest: u32) -> Vec<u32> {
    let first = greatest.checked_add(1);
    first.map_or(Vec::new(), |first| vec![first, first + 1, 2 * first, 3 * first - 1, u32::MAX - greatest, u32::MAX])
}

#[test]
fn the_ends_of_each_species() {
    for (species, greatest) in PLAIN {
        let mut store = store_with(2, species, &[0, greatest, 0]);
        for number in numbers_too_wide(greatest) {
            for pointer in [pointer::BEGIN, pointer::END, pointer::WORK] {
                assert_refused(&mut store, pointer, number, Refusal::TooWide);
            }
        }
        assert_eq!(store.write(0, 0, pointer::WORK, greatest), Ok(()));
        let read: Vec<u32> = store.elements(0, 0, pointer::BEGIN).map(|element| element.expect("elements")).collect();
        assert_eq!(read, [greatest, greatest, 0]);
    }
}

/// "Write through pointer 0 is judged too", though nothing of the number is stored.
#[test]
fn through_the_begin() {
    let mut store = store_with(1, Species::Bits1, &[1, 0]);
    assert_refused(&mut store, pointer::BEGIN, 2, Refusal::TooWide);
    assert_eq!((store.write(0, 0, pointer::BEGIN, 1), store.begin(0, 0)), (Ok(()), Ok(2)));
}

/// "after 7"
#[test]
fn what_is_judged_before() {
    let mut store = store_with(2, Species::Bits8, &[1, 2]);
    assert_eq!(store.new_pointer(0, 0, pointer::END), Ok(3));
    assert_eq!(store.next(0, 0, pointer::BEGIN), Ok(1));
    assert_refused(&mut store, 4, 256, Refusal::NotAPointer);
    assert_refused(&mut store, pointer::WORK, 256, Refusal::BelowBegin);
    assert_refused(&mut store, 3, 256, Refusal::BeyondEnd);

    assert_eq!((store.rename(0, 0, "a"), store.close_private(0, 0)), (Ok(()), Ok(())));
    assert_eq!(store.open_read(0, 0, "a"), Ok(()));
    assert_refused(&mut store, pointer::END, 256, Refusal::NoWorkPermit);
}

/// "before 10", 8 and 9: a number that fits shows that they wait.
#[test]
fn what_is_judged_afterwards() {
    let mut used_up = store_with(1, Species::Bits8, &[]);
    move_empty_file(&mut used_up, GREATEST_END);
    let held = store_with(32, Species::Bits16, &[7; 32 * 128]);
    let mut full = store_with(1, Species::Bits32, &[7]);
    assert_eq!((full.rename(0, 0, "a"), full.close_private(0, 0)), (Ok(()), Ok(())));
    assert_eq!(full.open_new(0, 0, Species::Bits16), Ok(()));

    let stores = [(used_up, Refusal::PositionsUsedUp), (held, Refusal::TooManySegments), (full, Refusal::NoRoom)];
    for (mut store, refusal) in stores {
        assert_refused(&mut store, pointer::END, 65_536, Refusal::TooWide);
        assert_refused(&mut store, pointer::END, 255, refusal);
    }
}

/// The rest begins with the number that is too wide, and all before it are written. The file's second segment begins among
/// them.
#[test]
fn a_run_stops_at_the_first() {
    let list: Vec<u32> = (0..70).collect();
    for at in 0..list.len() {
        let mut spoiled = list.clone();
        spoiled[at] = 65_536;
        let mut store = store_with(2, Species::Bits16, &[1; 100]);
        let (rest, stop) = store.write_run(0, 0, pointer::END, &spoiled);
        assert_eq!((rest.as_ptr_range(), stop), (spoiled[at..].as_ptr_range(), Some(Refusal::TooWide)));
        assert_eq!(store.end(0, 0), Ok(101 + at as u32));

        // Without it the run goes on.
        assert_eq!(store.write_run(0, 0, pointer::END, &rest[1..]), (&[][..], None));
        let mut read = [0; 169];
        assert_eq!(store.fill_run(0, 0, pointer::WORK, &mut read), (169, None));
        spoiled.remove(at);
        assert_eq!((&read[..100], &read[100..]), (&[1; 100][..], &spoiled[..]));
    }
}

#[test]
fn a_run_that_replaces_or_drops() {
    let mut store = store_with(1, Species::Bits4, &[1, 2, 3, 4]);
    let list = [9, 10, 16, 11];
    assert_eq!(store.write_run(0, 0, pointer::WORK, &list), (&list[2..], Some(Refusal::TooWide)));
    assert_eq!((store.value(0, 0, pointer::WORK), store.cells()[0]), (Ok(3), 0x9A34_0000));
    assert_eq!(store.write_run(0, 0, pointer::BEGIN, &list), (&list[2..], Some(Refusal::TooWide)));
    assert_eq!((store.begin(0, 0), store.cells()[0]), (Ok(3), 0x9A34_0000));
}
