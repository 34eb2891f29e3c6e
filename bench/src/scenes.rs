//! What the measured calls find: so many records, an open file, other openings.
use crate::calls::{is_done, At, Call, Lent, Performer};
use crate::tables::{filled, open_new, short, shuffled, Content, CELLS};
use crate::{proved, twin};

/// The user and entry of the measured calls.
pub const HERE: At = (0, 0);
/// Of each record, but on the full store.
pub const HELD: u32 = 15;
/// Segments between the records' and the open file's, for other openings or to be taken.
const LEFT_FREE: u32 = 31;
/// The longest run that is measured.
pub const LONGEST_RUN: usize = 60_000;

/// The name of the record at place 0, user 0's.
pub fn own() -> Vec<u8> {
    b"00".to_vec()
}

/// Cells, and the calls that are made over them first, by each build over its own.
pub struct Scene {
    lent: Lent,
    first: Vec<Call>,
}

impl Scene {
    fn of(tables: Vec<u32>) -> Scene {
        let list = vec![0; LONGEST_RUN];
        Scene {
            lent: Lent {
                store: vec![0; CELLS],
                tables,
                image: vec![0; twin::IMAGE],
                old: vec![0; twin::OLD_IMAGE],
                list,
                place: 0,
            },
            first: vec![],
        }
    }

    /// The same after these calls.
    pub fn after(mut self, calls: &[Call]) -> Scene {
        self.first.extend_from_slice(calls);
        self
    }

    /// After the first calls, if all are done.
    fn led(&self, perform: Performer, mut lent: Lent) -> Option<Lent> {
        self.first.iter().all(|call| is_done(perform(call, &mut lent))).then_some(lent)
    }

    /// What this build and the twin find.
    pub fn now(&self) -> Lent {
        self.led(proved::now, self.lent.clone()).expect("refused before measuring")
    }

    /// What the earlier build finds. Its tables may have lacked cells that stand at their end now, and its image may have another form.
    pub fn before(&self) -> Option<Lent> {
        let (tables, image) = proved::lengths_before()?;
        let mut lent = self.lent.clone();
        lent.tables.truncate(tables);
        lent.image.resize(image, 0);
        self.led(proved::before, lent)
    }
}

/// So many records of 15 segments each.
pub fn records(number: usize) -> Scene {
    Scene::of(filled(number, short, HELD))
}

/// 64 records of 16 segments each, so that no segment is free.
pub fn full() -> Scene {
    Scene::of(filled(64, short, 16))
}

/// So many records of so many segments each, whose numbers are as told and dealt by chance.
pub fn scattered(records: usize, held: usize, number: impl Fn(u32) -> u32) -> Scene {
    Scene::of(shuffled(records, held, number))
}

/// Beside the records a new file with this begin, where its work pointer stands, and end.
pub fn open_between(number: usize, species: u32, begin: u32, end: u32) -> Scene {
    let mut tables = filled(number, short, HELD);
    open_new(&mut tables, 0, Content { species, begin, end, first: HELD * number as u32 + LEFT_FREE });
    Scene::of(tables)
}

/// Beside the records a new file of so many elements of a species, and so many other openings, new files of one element each.
pub fn open_file(number: usize, species: u32, elements: u32, others: usize) -> Scene {
    let mut scene = open_between(number, species, 1, 1 + elements);
    for entry in 1..1 + others {
        let first = HELD * number as u32 + entry as u32 - 1;
        open_new(&mut scene.lent.tables, entry, Content { species, begin: 1, end: 2, first });
    }
    scene
}
