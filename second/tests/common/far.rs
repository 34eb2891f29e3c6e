//! Files at far positions.

use super::{check, fresh_desk};
use filing::text::answering::Desk;

/// The greatest end.
pub const LAST: u32 = 4_294_967_295;

/// The tables' cells of the begin, the end and the work pointer of user 0's entry 0, its first own pointer and its list.
pub const BEGIN: usize = 3205;
pub const END: usize = 3206;
pub const WORK: usize = 3207;
pub const OWN: usize = 3208;
pub const LIST: usize = 3225;

pub fn poke(desk: &mut Desk, cell: usize, value: u32) {
    check(desk, &[(&format!("poke tables {} {}", cell, value), &format!("cell {}", value))]);
}

pub fn put_bounds(desk: &mut Desk, begin: u32, end: u32) {
    poke(desk, END, end);
    poke(desk, BEGIN, begin);
}

/// A store of so many segments and an empty new file of user 0's entry 0, which begins and ends at this position.
pub fn desk_at(segments: usize, species: u32, position: u32) -> Desk {
    let mut desk = fresh_desk(64 * segments);
    check(&mut desk, &[(&format!("new 0 0 {}", species), "done 0")]);
    put_bounds(&mut desk, position, position);
    desk
}
