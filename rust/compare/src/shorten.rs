//! A shorter history that still shows a difference.

use crate::pair::{Difference, Pair};

/// So many trials at most.
const TRIALS: usize = 4_000;

/// A history up to the line after which the two differ, and how.
pub struct Shown {
    pub history: Vec<Vec<u8>>,
    pub difference: Difference,
}

/// Says the lines to a new pair; nothing if there is no difference.
fn replay(lines: &[Vec<u8>]) -> Option<Shown> {
    let mut pair = Pair::new(false);
    for line in lines {
        if let Err(difference) = pair.say(line) {
            return Some(Shown { history: pair.history, difference });
        }
    }
    None
}

/// Leaves out runs of lines, first long ones and then single lines, as long as a difference is left. Nothing if the
/// history shows none when it is said again.
pub fn shortened(history: &[Vec<u8>]) -> Option<Shown> {
    let mut shown = replay(history)?;
    let mut run = shown.history.len();
    let mut trials = 0;
    while run > 0 {
        let mut start = 0;
        let mut shorter = false;
        while start < shown.history.len() && trials < TRIALS {
            trials += 1;
            let mut rest = shown.history.clone();
            rest.drain(start..(start + run).min(rest.len()));
            match replay(&rest) {
                Some(less) => (shown, shorter) = (less, true),
                None => start += run,
            }
        }
        // Single lines are tried as long as that helps.
        if run > 1 || !shorter {
            run /= 2;
        }
    }
    Some(shown)
}
