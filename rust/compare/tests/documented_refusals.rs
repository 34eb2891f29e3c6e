//! The headers and the crate's documentation list for each call the refusals that `compare` sees it give, and no others, in the
//! order in which they are judged.

use compare::law::{OF_EMPTY_LISTS, REFUSALS};
use compare::line::{call, CALLS};
use std::fs;
use std::path::Path;

/// The crate's methods and functions, in the order of `CALLS`.
const METHODS: [&str; CALLS.len()] = [
    "fresh_start",
    "save",
    "load",
    "up",
    "down",
    "tidy",
    "free_segments",
    "open_new",
    "open_work",
    "open_read",
    "rename",
    "close_private",
    "close_public",
    "abandon",
    "reset",
    "new_pointer",
    "delete_pointer",
    "write",
    "next",
    "prev",
    "write_signed",
    "next_signed",
    "prev_signed",
    "write_run",
    "fill_run",
    "species",
    "claim",
    "permit",
    "symbol",
    "begin",
    "end",
    "value",
];

fn text_of(path: &str) -> String {
    let path = Path::new(env!("CARGO_MANIFEST_DIR")).join(path);
    fs::read_to_string(&path).unwrap_or_else(|error| panic!("{}: {error}", path.display()))
}

/// The call of an export, which has its name but for runs.
fn call_of(export: &str) -> Option<usize> {
    match export {
        "write_run" => call("writes"),
        "fill_run" => call("nexts"),
        _ => call(export),
    }
}

/// The first number of each part of a list, parted by semicolons; what follows it says where the refusal applies.
fn first_numbers(list: &str) -> Vec<u32> {
    let first = |part: &str| part.split(|letter: char| !letter.is_ascii_digit()).find_map(|word| word.parse().ok());
    list.split(';').filter_map(first).collect()
}

#[test]
fn in_the_headers() {
    let headers = ["dorrivand.h", "dorrivand_forms.h", "dorrivand_signed.h"];
    let text = headers.map(|name| text_of(&format!("../../include/{name}"))).concat();
    for part in text.split("Refusals: ").skip(1) {
        let (list, rest) = part.split_once("*/").expect("the comment ends");
        let (_, name) = rest.split_once(" dorrivand_").expect("a declaration follows");
        let (name, _) = name.split_once('(').expect("with arguments");
        let call = call_of(name).unwrap_or_else(|| panic!("{name} is no call"));
        // A run's list is followed by that of an empty run.
        let (list, of_no_element) = list.split_once("of a list of length 0 only").unwrap_or((list, ""));
        assert_eq!(first_numbers(list), REFUSALS[call], "{name}");
        let is_run = CALLS[call] != name;
        assert_eq!(first_numbers(of_no_element), if is_run { &OF_EMPTY_LISTS[..] } else { &[] }, "{name}");
    }
    assert_eq!(text.matches("Refusals: ").count(), CALLS.len());
}

#[test]
fn in_the_crate() {
    let files = ["access", "closing", "inquiries", "opening", "operator", "pointers", "runs", "signed"];
    let methods: String = files.iter().map(|file| text_of(&format!("../src/calls/{file}.rs"))).collect();
    let text = methods + &text_of("../src/forms.rs");
    for part in text.split("# Errors").skip(1) {
        let (list, rest) = part.split_once("```").expect("an example follows");
        let (_, name) = rest.split_once("pub fn ").expect("a function follows");
        let (name, _) = name.split_once(['(', '<']).expect("with arguments");
        let call = METHODS.iter().position(|&method| method == name).unwrap_or_else(|| panic!("{name} is no call"));
        // Here a refusal's number stands in parentheses.
        let numbers = list.split('(').skip(1).filter_map(|rest| rest.split(')').next()?.parse().ok());
        assert_eq!(numbers.collect::<Vec<u32>>(), REFUSALS[call], "{name}");
    }
    assert_eq!(text.matches("# Errors").count(), CALLS.len());
}
