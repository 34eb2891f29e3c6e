//! What a run stands for: "The outcome equals the single calls made one after another".
use crate::calls::{is_done, At, Call, Lent};
use crate::proved;

/// "a list of length 0 still gets refusals 20, 1, 2, 4, 5 where they apply", and 19 (P5)
const JUDGED_EMPTY: [u32; 6] = [20, 1, 2, 19, 4, 5];

/// Makes a run by the proved code's single calls; any other call is made as it is.
pub fn perform(call: &Call, lent: &mut Lent) -> i64 {
    match *call {
        Call::WriteRun(_, _, ref list) if list.is_empty() => judged(call, lent),
        Call::FillRun(_, _, 0) => judged(call, lent),
        Call::WriteRun(at, pointer, ref list) => written(at, pointer, list, lent),
        Call::FillRun(at, pointer, length) => filled(at, pointer, length, lent),
        _ => proved::now(call, lent),
    }
}

/// A run of no element: the single call is made elsewhere, and only these refusals count.
fn judged(call: &Call, lent: &mut Lent) -> i64 {
    let answer = call.single().map_or(0, |single| proved::now(&single, &mut lent.clone()));
    let refusal = answer as u32;
    lent.place = if !is_done(answer) && JUDGED_EMPTY.contains(&refusal) { refusal } else { 0 };
    0
}

/// How many elements are left unwritten.
fn written(at: At, pointer: u32, list: &[u32], lent: &mut Lent) -> i64 {
    lent.place = 0;
    for (many, &number) in list.iter().enumerate() {
        let answer = proved::now(&Call::Write(at, pointer, number), lent);
        if !is_done(answer) {
            lent.place = answer as u32;
            return (list.len() - many) as i64;
        }
    }
    0
}

/// How many elements are filled.
fn filled(at: At, pointer: u32, length: usize, lent: &mut Lent) -> i64 {
    lent.place = 0;
    for many in 0..length {
        let answer = proved::now(&Call::Next(at, pointer), lent);
        if !is_done(answer) {
            lent.place = answer as u32;
            return many as i64;
        }
        lent.list[many] = answer as u32;
    }
    length as i64
}
