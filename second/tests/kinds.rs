//! The signed calls "refuse species 0 to 5 with 19, and the plain ones refuse species 6 with 19, after 2 and before 4; so
//! do P1's runs, at length 0 too. Opening new takes species 6 and refuses 7 and above."

mod common;

use common::lists::close_and_open;
use common::{answer, check, fresh_desk};
use filing::text::answering::Desk;

/// A new file of this species in user 0's entry 0, with three elements that are 1.
fn desk_of(species: u32) -> Desk {
    let mut desk = fresh_desk(640);
    let write = if species == 6 { "write_signed 0 0 1 1" } else { "write 0 0 1 1" };
    check(&mut desk, &[(&format!("new 0 0 {}", species), "done 0"), (write, "done 0"), (write, "done 0")]);
    check(&mut desk, &[(write, "done 0")]);
    desk
}

/// Each of these lines gets this answer, and nothing has changed.
fn check_all(desk: &mut Desk, lines: &[String], wanted: &str) {
    let sums = |desk: &mut Desk| ["sum store", "sum tables", "sum list0", "sum list1"].map(|line| answer(desk, line));
    let before = sums(desk);
    for line in lines {
        assert_eq!(answer(desk, line), wanted, "{}", line);
    }
    assert_eq!(sums(desk), before);
}

/// Writes of numbers that fit and that do not, next and prev, by plain or signed words, through the same pointer.
fn calls(suffix: &str, entry: &str, pointer: u32) -> Vec<String> {
    let writes = ["0", "1", "99999", "2147483647"].map(|x| format!("write{} {} {} {}", suffix, entry, pointer, x));
    let steps = ["next", "prev"].map(|word| format!("{}{} {} {}", word, suffix, entry, pointer));
    writes.into_iter().chain(steps).collect()
}

fn plain(entry: &str, pointer: u32) -> Vec<String> {
    calls("", entry, pointer)
}

fn signed(entry: &str, pointer: u32) -> Vec<String> {
    calls("_signed", entry, pointer)
}

#[test]
fn new_files() {
    let mut desk = fresh_desk(640);
    for species in 0..7 {
        let lines = [format!("new 1 0 {}", species), "species 1 0".to_string(), "close 1 0".to_string()];
        let answers = lines.map(|line| answer(&mut desk, &line));
        assert_eq!(answers, ["done 0".to_string(), format!("done {}", species), "done 0".to_string()]);
    }
    let unknown: Vec<String> = [7, 8, 255, u32::MAX].iter().map(|species| format!("new 1 0 {}", species)).collect();
    check_all(&mut desk, &unknown, "refused 19");
    // 1, 2 and 3 come before.
    check(&mut desk, &[("new 8 0 7", "refused 1"), ("new 1 4 7", "refused 2"), ("new 1 0 6", "done 0")]);
    check(&mut desk, &[("new 1 0 7", "refused 3")]);
}

#[test]
fn signed_calls_on_plain_species() {
    for species in 0..6 {
        let mut desk = desk_of(species);
        // Those that are pointers and those that are not: 19 comes before 4.
        for pointer in [0, 1, 2, 3, 8, u32::MAX] {
            check_all(&mut desk, &signed("0 0", pointer), "refused 19");
        }
        check_all(&mut desk, &["write_signed 0 0 1 -1".to_string()], "refused 19");
    }
}

#[test]
fn plain_calls_on_signed_elements() {
    let mut desk = desk_of(6);
    for pointer in [0, 1, 2, 3, 8, u32::MAX] {
        check_all(&mut desk, &plain("0 0", pointer), "refused 19");
    }
}

/// 19 comes before 5 too, and 20, 1 and 2 before it.
#[test]
fn among_other_refusals() {
    for (species, wrong) in [(6, ["write 0 0 1 1", "next 0 0 0", "prev 0 0 1"]), (5, SIGNED_WORDS)] {
        let mut desk = desk_of(species);
        close_and_open(&mut desk, "read");
        check_all(&mut desk, &wrong.map(str::to_string), "refused 19");
    }
    let mut desk = desk_of(6);
    for calls in [plain, signed] {
        check_all(&mut desk, &calls("8 0", 1), "refused 1");
        check_all(&mut desk, &calls("0 4", 1), "refused 2");
        check_all(&mut desk, &calls("0 1", 1), "refused 2");
    }
    check_all(&mut desk, &signed("0 0", 3), "refused 4");
    check(&mut desk, &[("lend store 63", "lent 63")]);
    check_all(&mut desk, &plain("0 0", 1), "refused 20");
    check_all(&mut desk, &signed("0 0", 1), "refused 20");
}

const SIGNED_WORDS: [&str; 3] = ["write_signed 0 0 1 1", "next_signed 0 0 0", "prev_signed 0 0 1"];

fn check_runs(desk: &mut Desk, length: u32, number: u32, entry: &str) {
    let lend = format!("lend list1 {}", length);
    check(desk, &[(&lend, &format!("lent {}", length))]);
    for pointer in [0, 1, 2, 3, 8] {
        let rest = format!("rest {} {}", length, number);
        check_all(desk, &[format!("writes {} {} 1", entry, pointer)], &rest);
        check_all(desk, &[format!("nexts {} {} 1", entry, pointer)], &format!("filled 0 {}", number));
    }
}

#[test]
fn runs_on_signed_elements() {
    for length in [0, 1, 40] {
        let mut desk = desk_of(6);
        check_runs(&mut desk, length, 19, "0 0");
        check_runs(&mut desk, length, 1, "8 0");
        check_runs(&mut desk, length, 2, "0 4");
        check_runs(&mut desk, length, 2, "0 1");
        close_and_open(&mut desk, "read");
        check_runs(&mut desk, length, 19, "0 0");
        check(&mut desk, &[("lend tables 4992", "lent 4992")]);
        check_runs(&mut desk, length, 20, "0 0");
    }
}

/// Pointer calls, inquiries, renaming and ending take any species.
#[test]
fn other_calls_on_signed_elements() {
    let mut desk = desk_of(6);
    check(&mut desk, &[("pointer 0 0 1", "done 3"), ("value 0 0 3", "done 4"), ("delete 0 0 3", "done 0")]);
    check(&mut desk, &[("delete 0 0 3", "refused 4"), ("reset 0 0", "done 0"), ("value 0 0 9", "refused 4")]);
    check(&mut desk, &[("species 0 0", "done 6"), ("claim 0 0", "done 128"), ("permit 0 0", "done 1")]);
    check(&mut desk, &[("begin 0 0", "done 1"), ("end 0 0", "done 4"), ("symbol 0 0 0", "done 63")]);
    check(&mut desk, &[("rename 0 0 a", "done 0"), ("public 0 0", "done 0"), ("read 7 3 a", "done 0")]);
    check(&mut desk, &[("next_signed 7 3 2", "done 1"), ("next 7 3 2", "refused 19"), ("close 7 3", "done 0")]);
    check(&mut desk, &[("tidy", "done 0"), ("free 0", "done 9")]);
}
