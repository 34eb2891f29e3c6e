//! How long the proved calls take, beside an earlier build's, an unproved twin's and SQLite's: best of many rounds, all in one run.
mod agree;
#[cfg(sqlite)]
mod beside;
mod book;
mod calls;
mod chance;
mod damage;
mod decisions;
mod far;
mod form_1;
mod growth;
mod heard;
mod histories;
mod kinds;
mod measure;
mod moves;
mod numbers;
#[cfg(sqlite)]
mod peer;
mod proved;
mod random;
mod runs;
mod scenes;
mod singles;
mod starts;
mod tables;
mod tidyings;
mod twin;

/// Where bench/run does not find SQLite.
#[cfg(not(sqlite))]
mod beside {
    #[derive(Default)]
    pub struct Beside;

    impl Beside {
        pub fn pass(&mut self) {}

        pub fn print(&self) {
            println!("\nSQLite: not installed, its rows are left out.");
        }
    }
}

const PASSES: usize = 8;

fn main() {
    assert_eq!(proved::NOW.lengths(), (twin::TABLES, twin::IMAGE), "the twin's tables or image are not this build's");
    assert_eq!(proved::NOW.old_length(), twin::OLD_IMAGE, "the twin's image of form 1 is not this build's");
    agree_first();
    let (mut book, mut beside) = (book::Book::default(), beside::Beside::default());
    for _ in 0..measure::asked("PASSES", PASSES) {
        book.begin();
        decisions::write(&mut book);
        kinds::write(&mut book);
        tidyings::write(&mut book);
        runs::write(&mut book);
        growth::write(&mut book);
        beside.pass();
    }
    book.print(proved::lengths_before().is_some());
    beside.print();
}

fn agree_first() {
    histories::all().print();
    tables::compact().iter().chain(&tables::scattered()).for_each(|(_, tables)| agree::soundness(tables));
    let of_each_species =
        [tables::each_species(tables::early), tables::each_species(tables::late), far::each_species_away()];
    of_each_species.iter().for_each(|tables| agree::soundness(tables));
    println!("Soundness of the tables measured and of files of each species, with each one cell changed: alike.");
    far::listed_again().iter().for_each(|tables| agree::unsoundness(tables));
    println!("Tables that list segments twice, 256 of them or a multiple: unsound.");
}
