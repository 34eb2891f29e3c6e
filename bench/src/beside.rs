//! The proved calls beside SQLite, which does the same work by turns with them: each pass gives the least times of its rounds, and the medians of the
//! passes are told.
use crate::book::{figure, print_heading};
use crate::calls::{refusal, Call, Lent, DELIVERED};
use crate::measure::{again, least, opaque, Turns};
use crate::peer::{version, Readings};
use crate::proved;
use crate::runs::write_run;
use crate::scenes::{open_between, Scene, HERE};
use crate::twin::WHOLE_SPECIES;

type List = [u32; DELIVERED as usize];

/// A call on a file of so many readings, of 32 bits, and what SQLite does for it with a list on a table of as many rows.
struct Work {
    what: &'static str,
    readings: u32,
    ours: Call,
    theirs: fn(&Readings, &mut List),
}

/// Of 10 and then 40 readings all are in one stretch, of 44 and then 40 they are in two.
fn works() -> [Work; 6] {
    let all = DELIVERED as usize;
    [
        Work {
            what: "single append: an insert",
            readings: 100,
            ours: Call::Write(HERE, 1, 1),
            theirs: |table, list| table.append(list[0]),
        },
        Work {
            what: "single next through 2: a select of one row",
            readings: 100,
            ours: Call::Next(HERE, 2),
            theirs: |table, list| list[0] = table.read(1),
        },
        Work {
            what: "run of 40 appends, in one stretch: a transaction of 40 inserts",
            readings: 10,
            ours: write_run(WHOLE_SPECIES, 1, all),
            theirs: |table, list| table.append_all(list),
        },
        Work {
            what: "run of 40 appends, across stretches: a transaction of 40 inserts",
            readings: 44,
            ours: write_run(WHOLE_SPECIES, 1, all),
            theirs: |table, list| table.append_all(list),
        },
        Work {
            what: "run of 40 replacements through 2: a transaction of 40 updates",
            readings: 100,
            ours: write_run(WHOLE_SPECIES, 2, all),
            theirs: |table, list| {
                // SQLite writes nothing where a row has the number already
                list.iter_mut().for_each(|number| *number ^= 1);
                table.replace_all(1, list);
            },
        },
        Work {
            what: "fill of 40 through 2: a scan of 40 rows",
            readings: 100,
            ours: Call::FillRun(HERE, 2, all),
            theirs: |table, list| table.scan(1, list),
        },
    ]
}

fn reading(row: u32) -> u32 {
    row.wrapping_mul(0x9E37_79B9)
}

impl Work {
    fn scene(&self, records: usize) -> Scene {
        let appends: Vec<Call> = (1..=self.readings).map(|row| Call::Write(HERE, 1, reading(row))).collect();
        open_between(records, WHOLE_SPECIES, 1, 1).after(&appends)
    }

    fn table(&self) -> Readings {
        Readings::new(&(1..=self.readings).map(reading).collect::<Vec<u32>>())
    }

    /// Both do it once: the call is done, and both read the same.
    fn try_once(&self, mut lent: Lent) {
        let answer = proved::now(&self.ours, &mut lent);
        assert_eq!(refusal(&self.ours, answer, &lent), 0, "refused beside SQLite: {}", self.what);
        let mut list = [0; DELIVERED as usize];
        (self.theirs)(&self.table(), &mut list);
        match self.ours {
            Call::Next(..) => assert_eq!(answer, list[0].into(), "SQLite reads another number"),
            Call::FillRun(..) => assert_eq!(lent.list[..list.len()], list, "SQLite reads other numbers"),
            _ => {}
        }
    }

    /// The rows that were appended go before each round.
    fn turns(&self) -> Turns<'_> {
        let (table, mut list) = (self.table(), [7; DELIVERED as usize]);
        Box::new(move |turns| {
            if turns == 0 {
                table.shorten(self.readings);
            }
            for _ in 0..turns {
                (self.theirs)(&table, opaque(&mut list));
            }
        })
    }
}

/// The times of each pass, ours and SQLite's, for each work and number of records.
#[derive(Default)]
pub struct Beside {
    rows: Vec<(String, Vec<[f64; 2]>)>,
}

impl Beside {
    pub fn pass(&mut self) {
        let mut written = 0;
        for work in works() {
            for records in [0, 20, 64] {
                if written == self.rows.len() {
                    self.rows.push((format!("{} | {records}", work.what), vec![]));
                }
                let lent = work.scene(records).now();
                work.try_once(lent.clone());
                let times = least([Some(again(proved::now, &work.ours, lent)), Some(work.turns())]);
                self.rows[written].1.push(times);
                written += 1;
            }
        }
    }

    pub fn print(&self) {
        println!("\nBeside SQLite {}, in memory: medians of the passes.", version());
        print_heading("ours: SQLite's | records | now ns | SQLite ns | now/SQLite");
        for (columns, passes) in &self.rows {
            let [ours, theirs] = [0, 1].map(|whose| median(passes.iter().map(|times| times[whose])));
            let ratio = median(passes.iter().map(|times| times[0] / times[1]));
            println!("| {columns} | {} | {} | {} |", figure(ours, 0), figure(theirs, 0), figure(ratio, 2));
        }
    }
}

/// The middle one, or the mean of the two in the middle.
fn median(numbers: impl Iterator<Item = f64>) -> f64 {
    let mut numbers: Vec<f64> = numbers.collect();
    numbers.sort_by(f64::total_cmp);
    let (low, high) = (numbers[(numbers.len() - 1) / 2], numbers[numbers.len() / 2]);
    (low + high) / 2.0
}
