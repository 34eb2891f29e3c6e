//! The twin makes a call.
use super::means::{Fastest, Means, Singly};
use super::runs::{fill_run, write_run, Ran};
use super::{access, free, image, tidy, write, Refusal};
use crate::calls::{refused, Call, Lent, ABSENT};

/// The answer as the door packs it; calls that the twin does not have are absent.
pub fn perform(call: &Call, lent: &mut Lent) -> i64 {
    by::<Fastest>(call, lent)
}

/// The same, but for runs by single calls' means.
pub fn perform_singly(call: &Call, lent: &mut Lent) -> i64 {
    by::<Singly>(call, lent)
}

fn by<M: Means>(call: &Call, lent: &mut Lent) -> i64 {
    let Lent { store, tables, image, old, list, place } = lent;
    packed(match *call {
        Call::Save => image::save(store, tables, image),
        Call::Load => image::load(store, tables, image),
        Call::Up(segments) => image::up(old, image, segments),
        Call::Down(segments) => image::down(image, old, segments),
        Call::Tidy => tidy::tidy(store, tables),
        Call::Free(user) => free::free(store, tables, user),
        Call::Write((user, entry), pointer, number) => write::write(store, tables, user, entry, pointer, number),
        Call::Next((user, entry), pointer) => access::next::<u32>(store, tables, user, entry, pointer),
        Call::Prev((user, entry), pointer) => access::prev::<u32>(store, tables, user, entry, pointer),
        Call::WriteSigned((user, entry), pointer, number) => write::write(store, tables, user, entry, pointer, number),
        Call::NextSigned((user, entry), pointer) => {
            return packed(access::next::<i32>(store, tables, user, entry, pointer));
        }
        Call::PrevSigned((user, entry), pointer) => {
            return packed(access::prev::<i32>(store, tables, user, entry, pointer));
        }
        Call::Value((user, entry), pointer) => access::value(store, tables, user, entry, pointer),
        Call::Claim((user, entry)) => access::claim(store, tables, user, entry),
        Call::WriteRun((user, entry), pointer, ref list) => {
            return (list.len() - stopped(write_run::<M>(store, tables, user, entry, pointer, list), place)) as i64;
        }
        Call::FillRun((user, entry), pointer, length) => {
            return stopped(fill_run::<M>(store, tables, user, entry, pointer, &mut list[..length]), place) as i64;
        }
        _ => return ABSENT,
    })
}

fn packed(answer: Result<impl Into<i64>, Refusal>) -> i64 {
    match answer {
        Ok(number) => number.into(),
        Err(refusal) => refused(refusal as u32),
    }
}

/// "puts that refusal's number, or 0, in a lent place"; how many elements the run came to.
fn stopped(ran: Ran, place: &mut u32) -> usize {
    *place = ran.stop.map_or(0, |refusal| refusal as u32);
    ran.many
}
