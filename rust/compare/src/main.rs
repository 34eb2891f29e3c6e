//! `compare [--apart] [COUNT [SEED]]`: makes at least COUNT calls and says the first difference, if there is one.

use compare::pair::{Difference, Pair};
use compare::shorten::shortened;
use compare::stories::{tell, KINDS};
use compare::tally::Tally;
use std::env;
use std::process::ExitCode;

const DEFAULT_COUNT: u64 = 1_000_000;
const DEFAULT_SEED: u64 = 1973;

/// From so many calls on, every outcome that the law knows must have been seen.
const ALL_OUTCOMES_FROM: u64 = 500_000;

struct Wish {
    count: u64,
    seed: u64,
    /// Each call's slices are allocated by themselves.
    apart: bool,
}

fn wish() -> Option<Wish> {
    let mut words: Vec<String> = env::args().skip(1).collect();
    let apart = words.first().is_some_and(|word| word == "--apart");
    if apart {
        words.remove(0);
    }
    let (count, seed) = match &words[..] {
        [] => (DEFAULT_COUNT, DEFAULT_SEED),
        [count] => (count.parse().ok()?, DEFAULT_SEED),
        [count, seed] => (count.parse().ok()?, seed.parse().ok()?),
        _ => return None,
    };
    Some(Wish { count, seed, apart })
}

fn print_history(history: &[Vec<u8>]) {
    for line in history {
        println!("    {}", line.escape_ascii());
    }
}

fn report(pair: &Pair, difference: &Difference, number: u64, wish: &Wish) {
    let (kind, _) = KINDS[number as usize % KINDS.len()];
    println!("DIFFERENCE, seed {}, story {number} ({kind}), line {} of it:", wish.seed, pair.history.len());
    print_history(&pair.history[pair.history.len() - 1..]);
    println!("  {}", difference.0);
    match shortened(&pair.history) {
        Some(shown) => {
            println!("a shorter history ({} lines) after which {}:", shown.history.len(), shown.difference.0);
            print_history(&shown.history);
        }
        None => println!("the same lines said again show no difference: something outside of the cells decides"),
    }
}

fn main() -> ExitCode {
    let Some(wish) = wish() else {
        eprintln!("compare [--apart] [COUNT [SEED]]");
        return ExitCode::FAILURE;
    };
    let mut tally = Tally::default();
    let mut stories = 0;
    while tally.calls() < wish.count {
        let (pair, difference) = tell(wish.seed, stories, wish.apart);
        if let Some(difference) = difference {
            report(&pair, &difference, stories, &wish);
            return ExitCode::FAILURE;
        }
        tally.add(&pair.tally);
        stories += 1;
    }
    println!(
        "{} calls in {stories} stories, seed {}: all answers and all cells are the same",
        tally.calls(),
        wish.seed
    );
    print!("{}", tally.table());
    let missing = tally.never_seen();
    if wish.count >= ALL_OUTCOMES_FROM && !missing.is_empty() {
        println!("NEVER SEEN: {}", missing.join(", "));
        return ExitCode::FAILURE;
    }
    ExitCode::SUCCESS
}
