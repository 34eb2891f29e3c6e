//! Which outcomes the documents give each call.

use crate::line::CALLS;
use crate::reply::Reply;

/// The refusals of each call, in the order of `CALLS` and, within a call, of the documents.
pub const REFUSALS: [&[u32]; CALLS.len()] = [
    &[20],                          // fresh
    &[20, 22],                      // save
    &[20, 22],                      // load
    &[22],                          // up
    &[22, 24],                      // down
    &[20, 14],                      // tidy
    &[20, 1],                       // free
    &[20, 1, 2, 3, 19],             // new
    &[20, 1, 2, 3, 15, 11, 13, 14], // work
    &[20, 1, 2, 3, 15, 11, 14],     // read
    &[20, 1, 2, 5],                 // rename
    &[20, 1, 2, 16, 17],            // close
    &[20, 1, 2, 18, 16, 17],        // public
    &[20, 1, 2],                    // abandon
    &[20, 1, 2],                    // reset
    &[20, 1, 2, 4, 21],             // pointer
    &[20, 1, 2, 4],                 // delete
    OF_A_WRITE,                     // write
    OF_A_READING,                   // next
    OF_A_READING,                   // prev
    OF_A_WRITE,                     // write_signed
    OF_A_READING,                   // next_signed
    OF_A_READING,                   // prev_signed
    OF_A_WRITE,                     // writes
    OF_A_READING,                   // nexts
    &[20, 1, 2],                    // species
    &[20, 1, 2],                    // claim
    &[20, 1, 2],                    // permit
    &[20, 1, 2],                    // symbol
    &[20, 1, 2],                    // begin
    &[20, 1, 2],                    // end
    &[20, 1, 2, 4],                 // value
];

/// Those of a call that takes an element, and of one that gives it, plain or signed.
const OF_A_WRITE: &[u32] = &[20, 1, 2, 19, 4, 5, 6, 7, 23, 10, 8, 9];
const OF_A_READING: &[u32] = &[20, 1, 2, 19, 4, 5, 6, 7];

/// "a list of length 0 still gets refusals 20, 1, 2, 4, 5 where they apply", and 19 "at length 0 too".
pub const OF_EMPTY_LISTS: [u32; 6] = [20, 1, 2, 19, 4, 5];

/// What can stop a run after some of its elements: the other refusals meet its first element or none.
pub const MIDWAY: [(&str, &[u32]); 2] = [("writes", &[7, 23, 10, 8, 9]), ("nexts", &[7])];

/// Whether the law gives this call such an answer at all.
pub fn is_lawful(call: usize, reply: &Reply) -> bool {
    let refusal = reply.outcome();
    let known = refusal == 0 || REFUSALS[call].contains(&refusal);
    known && reply.elements().map_or(true, |elements| is_lawful_run(CALLS[call], elements, refusal))
}

/// A run that nothing stops has dealt with its whole list; a stopped one has not, unless the list is empty.
fn is_lawful_run(word: &str, (done, length): (usize, usize), refusal: u32) -> bool {
    let midway = || MIDWAY.iter().any(|(run, refusals)| *run == word && refusals.contains(&refusal));
    match (done, length, refusal) {
        (_, _, 0) => done == length,
        (0, 0, _) => OF_EMPTY_LISTS.contains(&refusal),
        (0, _, _) => true,
        _ => done < length && midway(),
    }
}
