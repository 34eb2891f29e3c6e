//! The refusals before a call's own: "Order: 20, 1, 2", "for a pointer call 4, 5", and 19 "after 2 and before 4"; for a tidying 20, 14.
use super::layout::{self, opening};
use super::numbers::Number;
use super::openings::value;
use super::soundness::sound;
use super::Refusal;

/// Sound tables, and a user.
pub fn user(store: &[u32], tables: &[u32], user: u32) -> Result<usize, Refusal> {
    if !sound(tables, store.len()) {
        return Err(Refusal::Tables);
    }
    if user > 7 {
        return Err(Refusal::User);
    }
    Ok(user as usize)
}

/// Sound tables, and "nothing open (else refusal 14)".
pub fn nothing_open(store: &[u32], tables: &[u32]) -> Result<(), Refusal> {
    if !sound(tables, store.len()) {
        return Err(Refusal::Tables);
    }
    if layout::openings(tables).any(|cells| cells[opening::OPEN] == 1) {
        return Err(Refusal::NotNow);
    }
    Ok(())
}

/// An entry of all 32 that must be open.
pub fn open_entry(store: &[u32], tables: &[u32], user: u32, entry: u32) -> Result<usize, Refusal> {
    let user = self::user(store, tables, user)?;
    if entry > 3 {
        return Err(Refusal::Entry);
    }
    let at = 4 * user + entry as usize;
    if layout::opening(tables, at)[opening::OPEN] == 0 {
        return Err(Refusal::Entry);
    }
    Ok(at)
}

/// An open entry whose file takes and gives such numbers and has the pointer, and the work permit where that is needed. A run of no element is judged by
/// this too.
pub fn pointer<N: Number>(
    store: &[u32],
    tables: &[u32],
    user: u32,
    entry: u32,
    pointer: u32,
    needs_permit: bool,
) -> Result<usize, Refusal> {
    let at = open_entry(store, tables, user, entry)?;
    let cells = layout::opening(tables, at);
    if !N::is_kind_of(cells[opening::SPECIES]) {
        return Err(Refusal::Species);
    }
    value(cells, pointer)?;
    if needs_permit && cells[opening::PERMIT] == 0 {
        return Err(Refusal::Permit);
    }
    Ok(at)
}
