//! Random calls, by which proved code and twin are held against each other.
use crate::agree::counted;
use crate::calls::{Call, Lent};
use crate::chance::Chance;
use crate::far::apart;
use crate::heard::Heard;
use crate::scenes::HERE;
use crate::starts::{
    crowded, files_about_form_1, files_near_limits, full_files, lent, one_file, open_one, scattered_files,
};
use crate::tables::{empty, filled, open_new, short, Content, CELLS};
use crate::twin::{GREATEST_END, GREATEST_SPECIES, SEGMENT_CELLS, SIGNED_SPECIES};
use crate::{damage, moves, twin};

/// A history of so many calls; once in so many calls some are made over damaged cells, which are then forgotten.
fn history(chance: &mut Chance, mut lent: Lent, calls: u32, damage: u32, heard: &mut Heard) {
    let mut beside = lent.clone();
    for _ in 0..calls {
        let done = counted(&chance.call(&lent.tables), &mut lent, &mut beside, heard);
        chance.heard(done);
        if chance.random.one_in(damage) {
            over_damaged_tables(chance, lent.clone(), heard);
        }
        if chance.random.one_in(damage) {
            load_damaged_image(chance, lent.clone(), heard);
        }
        if chance.random.one_in(damage) {
            moves::of_saved(&mut chance.random, lent.clone(), heard);
        }
    }
}

fn over_damaged_tables(chance: &mut Chance, mut lent: Lent, heard: &mut Heard) {
    damage::tables(&mut chance.random, &mut lent);
    let mut beside = lent.clone();
    for _ in 0..3 {
        counted(&chance.call(&lent.tables), &mut lent, &mut beside, heard);
    }
}

fn load_damaged_image(chance: &mut Chance, mut lent: Lent, heard: &mut Heard) {
    twin::perform(&Call::Save, &mut lent);
    damage::image(&mut chance.random, &mut lent.image);
    let mut beside = lent.clone();
    counted(&Call::Load, &mut lent, &mut beside, heard);
}

fn runs_on_one_file(chance: &mut Chance, heard: &mut Heard) {
    let (mut lent, at) = one_file(&mut chance.random);
    assert!(twin::sound(&lent.tables, lent.store.len()), "runs begin on sound tables");
    let mut beside = lent.clone();
    for _ in 0..3 {
        counted(&chance.run(&lent.tables, at), &mut lent, &mut beside, heard);
    }
}

fn accesses_on_one_file(chance: &mut Chance, heard: &mut Heard) {
    let (mut lent, at) = one_file(&mut chance.random);
    let mut beside = lent.clone();
    for _ in 0..5 {
        counted(&chance.access(&lent.tables, at), &mut lent, &mut beside, heard);
    }
    counted(&Call::Claim(at), &mut lent, &mut beside, heard);
}

/// Now and then a file is open, or cells are damaged. The second tidying finds what the first left.
fn tidy_scattered(chance: &mut Chance, heard: &mut Heard) {
    let mut lent = scattered_files(&mut chance.random);
    if chance.random.one_in(8) {
        open_one(&mut chance.random, &mut lent.tables);
    }
    assert!(twin::sound(&lent.tables, lent.store.len()), "tidyings begin on sound tables");
    if chance.random.one_in(8) {
        damage::tables(&mut chance.random, &mut lent);
    }
    let mut beside = lent.clone();
    for _ in 0..2 {
        counted(&Call::Tidy, &mut lent, &mut beside, heard);
    }
}

/// "append is done at e = 4,294,967,294 and 10 at 4,294,967,295", of each species.
fn appends_at_the_end(heard: &mut Heard) {
    for species in 0..=GREATEST_SPECIES {
        let mut tables = empty(1);
        open_new(&mut tables, 0, Content { species, begin: GREATEST_END - 1, end: GREATEST_END - 1, first: 0 });
        let mut lent = lent(SEGMENT_CELLS, tables);
        let mut beside = lent.clone();
        let append = if species == SIGNED_SPECIES { Call::WriteSigned(HERE, 1, 0) } else { Call::Write(HERE, 1, 0) };
        let done = [(); 2].map(|()| counted(&append, &mut lent, &mut beside, heard));
        assert_eq!(done, [true, false], "an append at the end of positions, of species {species}");
    }
}

/// A history from an opening that may be far from its record.
fn openings_apart(chance: &mut Chance, heard: &mut Heard) {
    let lent = apart(&mut chance.random);
    heard.apart[usize::from(twin::sound(&lent.tables, lent.store.len()))] += 1;
    history(chance, lent, 6, 8, heard);
}

/// What is saved is loaded again, whatever the tables held meanwhile, and no image that must be refused is. Damaged tables stop a load by their length alone.
fn images(chance: &mut Chance, heard: &mut Heard) {
    let mut lent = scattered_files(&mut chance.random);
    let mut beside = lent.clone();
    let saved = lent.tables.clone();
    counted(&Call::Save, &mut lent, &mut beside, heard);
    lent.tables.fill(chance.random.cell());
    beside.tables.copy_from_slice(&lent.tables);
    counted(&Call::Load, &mut lent, &mut beside, heard);
    assert!(lent.tables == saved, "what is loaded is not what was saved");
    for damage in damage::UNSOUND_IMAGES {
        let mut damaged = lent.clone();
        damage(&mut chance.random, &mut damaged);
        let done = counted(&Call::Load, &mut damaged.clone(), &mut damaged, heard);
        assert!(!done, "an unsound image is loaded");
    }
    damage::tables(&mut chance.random, &mut lent);
    counted(&Call::Load, &mut lent.clone(), &mut lent, heard);
}

/// Random histories over stores of several sizes, from empty, crowded and scattered tables and from openings apart from their records, tidyings, images and
/// their moves, and runs and single accesses on files of any kind.
pub fn all() -> Heard {
    let mut heard = Heard::default();
    let mut chance = Chance::new(1973);
    appends_at_the_end(&mut heard);
    for cells in [64, 200, 640, CELLS] {
        let segments = (cells / 64) as u32;
        history(&mut chance, lent(cells, empty(segments)), 25_000, 8, &mut heard);
    }
    for _ in 0..5 {
        let scattered = scattered_files(&mut chance.random);
        for lent in [lent(CELLS, filled(64, short, 16)), crowded(full_files), crowded(files_near_limits), scattered] {
            history(&mut chance, lent, 3_000, 8, &mut heard);
        }
    }
    for _ in 0..2_000 {
        tidy_scattered(&mut chance, &mut heard);
        openings_apart(&mut chance, &mut heard);
        images(&mut chance, &mut heard);
    }
    moves::about_the_greatest_end(&mut chance.random, &mut heard);
    for _ in 0..2_000 {
        let lent = files_about_form_1(&mut chance.random);
        moves::of_saved(&mut chance.random, lent.clone(), &mut heard);
        moves::of_unsound(&mut chance.random, lent, &mut heard);
    }
    for _ in 0..5_000 {
        runs_on_one_file(&mut chance, &mut heard);
        accesses_on_one_file(&mut chance, &mut heard);
    }
    heard.check();
    heard
}
