//! How long a call takes: this build, the earlier one and the twin by turns, the best of some rounds of each.
use crate::calls::{refusal, Call, Lent, Performer};
use crate::scenes::Scene;
use crate::{agree, proved, twin};
use std::time::Instant;

const ROUNDS: usize = 50;
const ROUND_NANOSECONDS: u64 = 400_000;

/// A number of the environment, or else the usual one.
pub fn asked(name: &str, usual: usize) -> usize {
    std::env::var(name).map_or(usual, |number| number.parse().expect(name))
}

/// The compiler does not see through it.
#[inline(never)]
pub fn opaque<T>(value: T) -> T {
    value
}

/// The least nanoseconds of this build, the earlier one and the twin; infinitely many where there is nothing to measure. Of a run, which is
/// known by how many elements it has, also those of the twin by single calls' means, of one single call by this build, and of a copy of as
/// many cells, where the elements are cells.
pub struct Figures {
    pub times: Vec<f64>,
    pub elements: Option<usize>,
}

/// Makes so many turns. Asked for none, it gets ready for the next, which is not timed.
pub type Turns<'a> = Box<dyn FnMut(u64) + 'a>;

/// One whose turns are timed: how many fill a round, and the least time of one.
struct Runner<'a> {
    make: Turns<'a>,
    turns: u64,
    least: f64,
}

impl<'a> Runner<'a> {
    fn new(make: Turns<'a>) -> Runner<'a> {
        let mut runner = Runner { make, turns: 10, least: f64::INFINITY };
        runner.round();
        runner.turns = (ROUND_NANOSECONDS / (runner.least as u64 + 1)).clamp(1, 20_000);
        runner
    }

    fn round(&mut self) {
        (self.make)(0);
        let start = Instant::now();
        (self.make)(self.turns);
        self.least = self.least.min(start.elapsed().as_nanos() as f64 / self.turns as f64);
    }
}

/// The least nanoseconds of each. Round after round each has its turns, another one first each time: what slows the machine down for a while slows
/// all of them down.
pub fn least<const N: usize>(makers: [Option<Turns>; N]) -> [f64; N] {
    let mut runners = makers.map(|make| make.map(Runner::new));
    for first in 0..asked("ROUNDS", ROUNDS) {
        for place in 0..N {
            if let Some(runner) = &mut runners[(first + place) % N] {
                runner.round();
            }
        }
    }
    runners.map(|runner| runner.map_or(f64::INFINITY, |runner| runner.least))
}

/// The cells that differ, as they are in the first tables.
fn differing(before: &[u32], after: &[u32]) -> Vec<(usize, u32)> {
    let cells = before.iter().zip(after).enumerate();
    cells.filter(|(_, (kept, now))| kept != now).map(|(cell, (&kept, _))| (cell, kept)).collect()
}

/// Makes a call again and again. The cells that it changes in the tables are put back by hand after each, in the measured time. Those of the store
/// stay as it leaves them: what they hold changes no call's work, and putting them back would hide how long a tidying's own copies take.
pub fn again<'a>(perform: Performer, call: &'a Call, mut lent: Lent) -> Turns<'a> {
    let mut after = lent.clone();
    perform(call, &mut after);
    let back = differing(&lent.tables, &after.tables);
    Box::new(move |turns| {
        for _ in 0..turns {
            opaque(perform(call, &mut lent));
            for &(cell, kept) in &back {
                lent.tables[cell] = kept;
            }
        }
    })
}

/// What the earlier build finds, where it answers so.
fn earlier(scene: &Scene, call: &Call, number: u32) -> Option<Lent> {
    scene.before().filter(|lent| {
        let mut after = lent.clone();
        let answer = proved::before(call, &mut after);
        refusal(call, answer, &after) == number
    })
}

/// What this build finds, where it must answer so, and whether the twin has the call.
fn now(scene: &Scene, call: &Call, number: u32) -> (Lent, bool) {
    let lent = scene.now();
    let mut after = lent.clone();
    let (answer, twins) = agree::both(call, &mut after, &mut lent.clone());
    assert_eq!(refusal(call, answer, &after), number, "not the answer to be measured: {call:?}");
    (lent, twins)
}

/// A call on a scene, which must be done, or refused so. The earlier build is left out where it answers otherwise, the twin where it does not have the call.
pub fn call(scene: &Scene, call: &Call, refused: Option<u32>) -> Figures {
    let number = refused.unwrap_or(0);
    let (lent, twins) = now(scene, call, number);
    let times = least([
        Some(again(proved::now, call, lent.clone())),
        earlier(scene, call, number).map(|lent| again(proved::before, call, lent)),
        twins.then(|| again(twin::perform, call, lent)),
    ]);
    Figures { times: times.to_vec(), elements: None }
}

/// Copies as many cells as the run has elements, the way that it goes: from a list into a store, or back.
fn copied<'a>(run: &'a Call, elements: usize, mut lent: Lent) -> Turns<'a> {
    Box::new(move |turns| {
        let (store, list) = (&mut lent.store[..elements], &mut lent.list[..elements]);
        for _ in 0..turns {
            match run {
                Call::FillRun(..) => opaque(&mut *list).copy_from_slice(opaque(&*store)),
                _ => opaque(&mut *store).copy_from_slice(opaque(&*list)),
            }
        }
    })
}

/// A run on a scene, all of whose elements must be done, by turns with the first of its single calls, and with a copy where its elements are
/// cells.
pub fn run(scene: &Scene, run: &Call, elements: usize, are_cells: bool) -> Figures {
    let single = run.single().expect("a run");
    let (lent, _) = now(scene, run, 0);
    let times = least([
        Some(again(proved::now, run, lent.clone())),
        earlier(scene, run, 0).map(|lent| again(proved::before, run, lent)),
        Some(again(twin::perform, run, lent.clone())),
        Some(again(twin::perform_singly, run, lent.clone())),
        Some(again(proved::now, &single, lent.clone())),
        are_cells.then(|| copied(run, elements, lent)),
    ]);
    Figures { times: times.to_vec(), elements: Some(elements) }
}
