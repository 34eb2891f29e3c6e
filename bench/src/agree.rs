//! Proved code and twin held against each other: the same answer, and the same store, tables, images, list and place afterwards; and runs held
//! against their single calls. A difference stops the program. Calls that the twin does not have lead the proved code on, and the twin follows.
use crate::calls::{refusal, Call, Lent, Performer, ABSENT};
use crate::heard::{Heard, GREATEST_REFUSAL};
use crate::proved::{self, NOW};
use crate::tables::CELLS;
use crate::twin::{GREATEST_END, GREATEST_SPECIES};
use crate::{singles, twin};

/// What a cell is changed to.
const CHANGED: [u32; 10] =
    [0, 1, 2, GREATEST_SPECIES, GREATEST_SPECIES + 1, 63, 64, 1024, GREATEST_END - 1, GREATEST_END];

/// The proved code makes the call, and so does the twin where it has it, each over its own cells, which must be the same afterwards. The answer, and
/// whether the twin gave it too.
pub fn both(call: &Call, lent: &mut Lent, beside: &mut Lent) -> (i64, bool) {
    let (answer, twins) = (proved::now(call, lent), twin::perform(call, beside));
    if twins == ABSENT {
        beside.tables.copy_from_slice(&lent.tables);
    } else {
        assert_eq!(answer, twins, "proved code and twin answer differently: {call:?}");
    }
    assert!(lent.tables == beside.tables, "proved code and twin leave different tables: {call:?}");
    assert!(lent.store == beside.store, "proved code and twin leave different stores: {call:?}");
    assert!(lent.image == beside.image, "proved code and twin leave different images: {call:?}");
    assert!(lent.old == beside.old, "proved code and twin leave different images of form 1: {call:?}");
    assert!(lent.list == beside.list, "proved code and twin leave different lists: {call:?}");
    assert_eq!(lent.place, beside.place, "proved code and twin put different numbers in the place: {call:?}");
    (answer, twins != ABSENT)
}

/// A run answers and leaves what its single calls do, and what the twin does by their means.
fn run_alike(run: &Call, stood: &Lent, answer: i64, after: &Lent) {
    let others: [(&str, Performer); 2] =
        [("its single calls", singles::perform), ("the twin by single calls' means", twin::perform_singly)];
    for (who, perform) in others {
        let mut lent = stood.clone();
        assert_eq!(perform(run, &mut lent), answer, "a run and {who} answer differently: {run:?}");
        assert_eq!(lent.place, after.place, "a run and {who} put different numbers in the place: {run:?}");
        assert!(lent == *after, "a run and {who} leave different cells or lists: {run:?}");
    }
}

/// The same as both, counted. The refusal that it was answered with or that stopped it, 0 where there was none.
pub fn refused_by(call: &Call, lent: &mut Lent, beside: &mut Lent, heard: &mut Heard) -> usize {
    let stood = call.single().map(|_| lent.clone());
    let (answer, twins) = both(call, lent, beside);
    let refusal = refusal(call, answer, lent) as usize;
    assert!(refusal <= GREATEST_REFUSAL, "an answer that the documents do not have: {answer}");
    if let Some(stood) = stood {
        run_alike(call, &stood, answer, lent);
    }
    if twins {
        heard.count(call, answer, refusal);
    }
    refusal
}

/// The same. Whether it was done.
pub fn counted(call: &Call, lent: &mut Lent, beside: &mut Lent, heard: &mut Heard) -> bool {
    refused_by(call, lent, beside, heard) == 0
}

fn judged_alike(tables: &[u32]) -> bool {
    (NOW.sound(tables, CELLS) == 1) == twin::sound(tables, CELLS)
}

/// Both must say the same of sound tables and of tables with one cell changed.
pub fn soundness(tables: &[u32]) {
    assert!(twin::sound(tables, CELLS) && judged_alike(tables));
    let mut damaged = tables.to_vec();
    for cell in 0..damaged.len() {
        for value in CHANGED {
            let kept = std::mem::replace(&mut damaged[cell], value);
            assert!(judged_alike(&damaged), "proved code and twin judge differently: cell {cell} at {value}");
            damaged[cell] = kept;
        }
    }
}

/// Both must find these tables unsound.
pub fn unsoundness(tables: &[u32]) {
    assert!(!twin::sound(tables, CELLS) && judged_alike(tables), "unsound tables are taken for sound ones");
}
