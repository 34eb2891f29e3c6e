//! How often each call had each outcome, and what was seen besides.

use crate::law::{MIDWAY, OF_EMPTY_LISTS, REFUSALS};
use crate::line::{call, CALLS};
use crate::reply::Reply;
use crate::spoiling::{Spoiling, SPOILINGS};
use dorrivand::{pointer, Refusal};

const OUTCOMES: usize = 25;

/// Whether a call with these numbers and this reply shows something that its outcome does not.
type Shows = fn([u32; 4], &Reply) -> bool;

const TELLING: [(&str, &str, Shows); 9] = [
    ("tidy", "that moves something", |_, reply| reply.number() > Some(0)),
    ("next_signed", "of a number below zero", is_below_zero),
    ("prev_signed", "of a number below zero", is_below_zero),
    ("write", "through the begin refused 23", is_judged_though_dropped),
    ("write_signed", "through the begin refused 23", is_judged_though_dropped),
    ("writes", "through the begin stopped by 23", is_judged_though_dropped),
    ("begin", "of 4,294,967,295", is_the_greatest_end),
    ("end", "of 4,294,967,295", is_the_greatest_end),
    ("value", "of 4,294,967,295", is_the_greatest_end),
];

fn is_below_zero(_: [u32; 4], reply: &Reply) -> bool {
    reply.number().is_some_and(|number| number < 0)
}

/// "Write through pointer 0 is judged too."
fn is_judged_though_dropped([_, _, through, _]: [u32; 4], reply: &Reply) -> bool {
    through == pointer::BEGIN && reply.refusal() == Some(Refusal::TooWide)
}

fn is_the_greatest_end(_: [u32; 4], reply: &Reply) -> bool {
    reply.number() == Some(4_294_967_295)
}

#[derive(Default)]
pub struct Tally {
    /// By call and outcome: 0 for done, else the refusal.
    counts: [[u64; OUTCOMES]; CALLS.len()],
    /// Those of runs that were stopped after some of their elements.
    midway: [[u64; OUTCOMES]; CALLS.len()],
    /// Those of runs with an empty list.
    empty: [[u64; OUTCOMES]; CALLS.len()],
    /// Calls that showed more, in the order of `TELLING`.
    telling: [u64; TELLING.len()],
    /// Calls that were refused for one thing alone, in the order of `SPOILINGS`.
    spoiled: [u64; SPOILINGS.len()],
}

impl Tally {
    pub fn count(&mut self, call: usize, numbers: [u32; 4], reply: &Reply) {
        let outcome = reply.outcome() as usize;
        self.counts[call][outcome] += 1;
        self.midway[call][outcome] += u64::from(reply.stopped_midway());
        self.empty[call][outcome] += u64::from(reply.is_of_an_empty_list());
        for (count, (word, _, shows)) in self.telling.iter_mut().zip(TELLING) {
            *count += u64::from(CALLS[call] == word && shows(numbers, reply));
        }
    }

    pub fn count_spoiled(&mut self, call: &str, spoiling: Spoiling) {
        for (count, (word, what, _)) in self.spoiled.iter_mut().zip(SPOILINGS) {
            *count += u64::from((word, what) == (call, spoiling));
        }
    }

    pub fn calls(&self) -> u64 {
        self.counts.iter().flatten().sum()
    }

    pub fn add(&mut self, other: &Tally) {
        let mine = [&mut self.counts, &mut self.midway, &mut self.empty].into_iter().flatten().flatten();
        let others = [&other.counts, &other.midway, &other.empty].into_iter().flatten().flatten();
        let (mine, others) = (mine.chain(&mut self.telling), others.chain(&other.telling));
        for (count, more) in mine.chain(&mut self.spoiled).zip(others.chain(&other.spoiled)) {
            *count += more;
        }
    }

    /// The outcomes that the law knows and nobody has seen.
    pub fn never_seen(&self) -> Vec<String> {
        let mut missing = Vec::new();
        for (call, word) in CALLS.iter().enumerate() {
            if self.counts[call][0] == 0 {
                missing.push(format!("{word} done"));
            }
            let unseen = REFUSALS[call].iter().filter(|&&refusal| self.counts[call][refusal as usize] == 0);
            missing.extend(unseen.map(|refusal| format!("{word} refused {refusal}")));
        }
        missing.extend(self.sights().into_iter().filter(|&(_, count)| count == 0).map(|(sight, _)| sight));
        missing
    }

    /// One line a call.
    pub fn table(&self) -> String {
        let mut table = String::from("call              done  refused (number: how often)\n");
        for (call, word) in CALLS.iter().enumerate() {
            let refused =
                REFUSALS[call].iter().map(|&refusal| format!("{refusal}: {}", self.counts[call][refusal as usize]));
            let refused: Vec<String> = refused.collect();
            table += &format!("{word:<12} {:>9}  {}\n", self.counts[call][0], refused.join(", "));
        }
        for (sight, count) in self.sights() {
            table += &format!("{sight}: {count}\n");
        }
        table
    }

    /// What outcomes alone do not show, and how often it was seen.
    fn sights(&self) -> Vec<(String, u64)> {
        let mut sights = Vec::new();
        for (word, refusals) in MIDWAY {
            let run = call(word).expect("a call");
            for &refusal in refusals {
                sights.push((format!("{word} stopped midway by {refusal}"), self.midway[run][refusal as usize]));
            }
            for refusal in OF_EMPTY_LISTS {
                sights.push((format!("{word} of no element refused {refusal}"), self.empty[run][refusal as usize]));
            }
        }
        for ((word, what, _), count) in TELLING.iter().zip(self.telling) {
            sights.push((format!("{word} {what}"), count));
        }
        for ((word, _, what), count) in SPOILINGS.iter().zip(self.spoiled) {
            sights.push((format!("{word} refused for {what} alone"), count));
        }
        sights
    }
}
