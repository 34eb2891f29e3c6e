//! Owned and lent cells, odd lengths, and cells that are nobody's.

use dorrivand::{pointer, Refusal, Species, Store};

/// A short day: a file made, closed, and worked on again.
fn some_calls(store: &mut Store) -> Result<u32, Refusal> {
    store.fresh_start()?;
    store.open_new(3, 1, Species::Bits2)?;
    for number in 0..750 {
        store.write(3, 1, pointer::END, number % 4)?;
    }
    let more: Vec<u32> = (750..1500).map(|number| number % 4).collect();
    assert_eq!(store.write_run(3, 1, pointer::END, &more), (&[][..], None));
    store.rename(3, 1, "a")?;
    store.close_public(3, 1)?;
    store.open_work(3, 2, "a")?;
    store.reset(3, 2)?;
    store.write(3, 2, pointer::WORK, 3)?;
    store.free_segments(3)
}

#[test]
fn lent_and_owned_cells_come_to_the_same() {
    let (mut cells, mut tables) = (vec![9; 640], vec![9; 4993]);
    let mut lent = Store::over(&mut cells, &mut tables);
    assert_eq!(some_calls(&mut lent), Ok(7));
    let mut owned = Store::from_cells(vec![9; 640], vec![9; 4993]);
    assert_eq!(some_calls(&mut owned), Ok(7));
    assert!(owned.into_cells() == (cells, tables));
}

#[test]
fn a_store_of_the_same_cells_is_the_same_store() {
    let mut store = Store::with_segments(10).expect("there is a segment");
    assert_eq!(some_calls(&mut store), Ok(7));
    let (cells, tables) = store.into_cells();
    let mut again = Store::from_cells(cells, tables);
    assert_eq!(again.next(3, 2, pointer::WORK), Ok(1));
    assert_eq!(again.free_segments(3), Ok(7));
}

#[test]
fn cells_beyond_the_segments_stay() {
    let mut store = Store::from_cells(vec![9; 4 * 64 + 63], vec![0; 4993]);
    assert_eq!(some_calls(&mut store), Ok(1));
    assert!(store.cells()[4 * 64..] == [9; 63]);
}

#[test]
fn tables_of_another_length() {
    for length in [0, 1, 960, 961, 4992, 4994, 10_000] {
        let mut store = Store::from_cells(vec![0; 640], vec![0; length]);
        assert_eq!(store.fresh_start(), Err(Refusal::UnsoundTables));
        assert_eq!(store.load(&[]), Err(Refusal::UnsoundTables));
        assert_eq!(store.tidy(), Err(Refusal::UnsoundTables));
        assert_eq!(store.free_segments(0), Err(Refusal::UnsoundTables));
    }
}

#[test]
fn nothing_lent_at_all() {
    let mut store = Store::over(&mut [], &mut []);
    assert_eq!(store.fresh_start(), Err(Refusal::UnsoundTables));
    assert_eq!(store.open_work(0, 0, ""), Err(Refusal::UnsoundTables));
    assert_eq!(store.save(&mut []), Err(Refusal::UnsoundTables));
    assert_eq!(store.tidy(), Err(Refusal::UnsoundTables));
    assert_eq!(store.write_run(0, 0, 0, &[]), (&[][..], Some(Refusal::UnsoundTables)));
    assert_eq!(store.fill_run(0, 0, 0, &mut []), (0, Some(Refusal::UnsoundTables)));
}

#[test]
fn names_of_any_kind_of_bytes() {
    let mut store = Store::with_segments(1).expect("there is a segment");
    assert_eq!(store.open_new(0, 0, Species::Bits1), Ok(()));
    assert_eq!(store.rename(0, 0, "lift 7"), Ok(()));
    assert_eq!(store.rename(0, 0, String::from("lift 7")), Ok(()));
    assert_eq!(store.rename(0, 0, vec![b'z'; 100_000]), Ok(()));
    assert_eq!(store.symbol(0, 0, 11), Ok(35));
    assert_eq!(store.rename(0, 0, [b'0', 0xFF, b'1']), Ok(()));
    assert_eq!((store.symbol(0, 0, 0), store.symbol(0, 0, 1)), (Ok(0), Ok(63)));
}

#[test]
fn the_debug_form_is_short() {
    let store = Store::with_segments(2).expect("there is a segment");
    assert_eq!(format!("{store:?}"), "Store { cells: 128, tables: 4993, .. }");
}
