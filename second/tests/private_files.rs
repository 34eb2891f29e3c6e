//! "A refusal that tells tales": "A file that is another's and private must look absent: 11 in place of 12, for read and
//! for work, and 12 is never given again. 13 stays, for public files."

mod common;

use common::{answer, check, fresh_desk};
use filing::text::answering::Desk;

/// A user closes a new file called "evict" that holds this one element, by "close" or "public".
fn make_evict(desk: &mut Desk, user: u32, element: u32, ending: &str) {
    for line in ["new U 3 5", "write U 3 1 X", "rename U 3 evict", "ENDING U 3"] {
        let line = line.replace("ENDING", ending).replace('U', &user.to_string()).replace('X', &element.to_string());
        check(desk, &[(&line, "done 0")]);
    }
}

/// Each user has such a file, the first one in place 0.
fn desk_with_evict(files: &[(u32, u32, &str)]) -> Desk {
    let mut desk = fresh_desk(640);
    for &(user, element, ending) in files {
        make_evict(&mut desk, user, element, ending);
    }
    desk
}

/// What a user finds under "evict" at entry 0 by reading: its element, after which it is closed.
fn check_read(desk: &mut Desk, user: u32, element: u32) {
    let [open, next, close] =
        ["read U 0 evict", "next U 0 2", "close U 0"].map(|line| line.replace('U', &user.to_string()));
    check(desk, &[(&open, "done 0"), (&next, &format!("done {}", element)), (&close, "done 0")]);
}

/// "for read and for work", and nothing has changed.
fn check_both_refused(desk: &mut Desk, user: u32, name: &str, wanted: &str) {
    let before = ["sum tables", "sum store"].map(|line| answer(desk, line));
    for word in ["read", "work"] {
        assert_eq!(answer(desk, &format!("{} {} 0 {}", word, user, name)), wanted, "{} by user {}", word, user);
    }
    assert_eq!(["sum tables", "sum store"].map(|line| answer(desk, line)), before);
}

#[test]
fn anothers_private_file_looks_absent() {
    let mut desk = fresh_desk(640);
    check_both_refused(&mut desk, 0, "evict", "refused 11");
    make_evict(&mut desk, 2, 7, "close");
    for user in [0, 1, 3, 7] {
        check_both_refused(&mut desk, user, "nobodys", "refused 11");
        check_both_refused(&mut desk, user, "evict", "refused 11");
        check_both_refused(&mut desk, user, "e v i c t-x", "refused 11");
    }
    make_evict(&mut desk, 3, 8, "close");
    check_both_refused(&mut desk, 0, "evict", "refused 11");
}

/// "not now" would tell as much as 12 did.
#[test]
fn also_while_its_owner_has_it_open() {
    for word in ["read", "work"] {
        let mut desk = desk_with_evict(&[(2, 7, "close")]);
        assert_eq!(answer(&mut desk, &format!("{} 2 1 evict", word)), "done 0");
        check_both_refused(&mut desk, 0, "evict", "refused 11");
        check(&mut desk, &[("work 2 0 evict", "refused 14")]);
    }
}

#[test]
fn the_own_private_file_is_found() {
    let mut desk = desk_with_evict(&[(2, 7, "close")]);
    check_read(&mut desk, 2, 7);
    check(&mut desk, &[("work 2 0 evict", "done 0"), ("permit 2 0", "done 1"), ("prev 2 0 2", "done 7")]);
    check(&mut desk, &[("read 2 1 evict", "refused 14"), ("work 2 1 evict", "refused 14")]);
}

#[test]
fn private_files_of_one_name() {
    let mut desk = desk_with_evict(&[(2, 7, "close"), (5, 8, "close")]);
    check_read(&mut desk, 2, 7);
    check_read(&mut desk, 5, 8);
    // One owner's work doesn't hinder the other's.
    check(&mut desk, &[("work 2 0 evict", "done 0"), ("work 5 0 evict", "done 0"), ("prev 5 0 2", "done 8")]);
}

#[test]
fn a_public_file_is_found_beside_a_third_users_private_one() {
    for files in [[(2, 7, "close"), (5, 8, "public")], [(5, 8, "public"), (2, 7, "close")]] {
        let mut desk = desk_with_evict(&files);
        for (user, element) in [(0, 8), (5, 8), (2, 7)] {
            check_read(&mut desk, user, element);
        }
        check(&mut desk, &[("work 0 0 evict", "refused 13"), ("work 5 0 evict", "done 0")]);
        check(&mut desk, &[("read 0 0 evict", "refused 14"), ("work 0 0 evict", "refused 13")]);
    }
}

/// "Work on another's public file: 13", be it open or not.
#[test]
fn work_on_anothers_public_file() {
    let mut desk = desk_with_evict(&[(5, 8, "public")]);
    check(&mut desk, &[("work 0 0 evict", "refused 13"), ("read 1 0 evict", "done 0")]);
    check(&mut desk, &[("work 0 0 evict", "refused 13"), ("work 5 0 evict", "refused 14")]);
    check(&mut desk, &[("close 1 0", "done 0"), ("work 5 0 evict", "done 0"), ("work 0 0 evict", "refused 13")]);
}

/// "Look-up takes the user's own record of that name first, then a public one."
#[test]
fn the_own_file_is_found_before_a_public_one() {
    for files in [[(2, 7, "close"), (5, 8, "public")], [(5, 8, "public"), (2, 7, "close")]] {
        let mut desk = desk_with_evict(&files);
        check(&mut desk, &[("work 5 0 evict", "done 0"), ("read 0 0 evict", "refused 14")]);
        check_read(&mut desk, 2, 7);
        check(&mut desk, &[("work 2 0 evict", "done 0"), ("prev 2 0 2", "done 7")]);
        // Without it the public one is found.
        check(&mut desk, &[("rename 2 0", "done 0"), ("close 2 0", "done 0"), ("work 2 0 evict", "refused 13")]);
        check(&mut desk, &[("close 5 0", "done 0"), ("work 2 0 evict", "refused 11")]);
    }
}

/// 1, 2 and 3, then 15, 11/13, 14: document 01's order without 12.
#[test]
fn the_order_of_refusals() {
    let mut desk = desk_with_evict(&[(2, 7, "close"), (5, 8, "public")]);
    check(&mut desk, &[("new 0 0 5", "done 0"), ("work 0 0 evict", "refused 3"), ("close 0 0", "done 0")]);
    check(&mut desk, &[("work 5 1 evict", "done 0"), ("work 5 1", "refused 3"), ("read 5 1 nobodys", "refused 3")]);
    check_both_refused(&mut desk, 0, "", "refused 15");
    check_both_refused(&mut desk, 0, "Evict", "refused 15");
    check_both_refused(&mut desk, 8, "evict", "refused 1");
    check(&mut desk, &[("read 0 4 evict", "refused 2"), ("work 0 0 evict", "refused 13")]);
    check(&mut desk, &[("read 0 0 evict", "refused 14"), ("rename 5 1 other", "done 0"), ("close 5 1", "done 0")]);
    check_both_refused(&mut desk, 0, "evict", "refused 11");
    check_both_refused(&mut desk, 0, "other", "refused 11");
}

/// What is closed as public is there for all from then on, and what is closed as private is gone for others.
#[test]
fn public_and_private_again() {
    let mut desk = desk_with_evict(&[(2, 7, "close")]);
    check(&mut desk, &[("work 2 0 evict", "done 0"), ("public 2 0", "done 0"), ("work 0 0 evict", "refused 13")]);
    check_read(&mut desk, 0, 7);
    check(&mut desk, &[("work 2 0 evict", "done 0"), ("close 2 0", "done 0")]);
    check_both_refused(&mut desk, 0, "evict", "refused 11");
}

/// A load and a poke lead to the same look-up: record 0 starts at cell 1, its privacy is cell 15.
#[test]
fn loaded_and_poked_privacy() {
    let mut desk = desk_with_evict(&[(2, 7, "close")]);
    check(&mut desk, &[("save 0", "done 0"), ("fresh", "done 0"), ("load 0", "done 0")]);
    check_both_refused(&mut desk, 0, "evict", "refused 11");
    check_read(&mut desk, 2, 7);
    check(&mut desk, &[("poke tables 15 0", "cell 0"), ("work 0 0 evict", "refused 13")]);
    check_read(&mut desk, 0, 7);
}

/// "16 is given exactly if ... another record has the same owner and name, or public is asked and another public record
/// has the name": a private file of another's is not told of by a close either.
#[test]
fn a_close_tells_nothing_of_anothers_private_file() {
    let mut desk = desk_with_evict(&[(2, 7, "close"), (0, 1, "close"), (1, 2, "public")]);
    check(&mut desk, &[("new 3 0 5", "done 0"), ("rename 3 0 evict", "done 0"), ("public 3 0", "refused 16")]);
    check(&mut desk, &[("close 3 0", "done 0")]);
}
