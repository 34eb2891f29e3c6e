//! "The outcome equals the single calls made one after another": generated histories, told to one desk as they are
//! and to another with its runs taken apart.

mod common;

use common::answer;
use filing::telling::{history, mode::Mode};
use filing::text::answering::Desk;
use filing::text::line::{BufferName, Line};

/// The number of a refusal, if the answer is one.
fn refusal(answer: &str) -> Option<u32> {
    answer.strip_prefix("refused ").map(|number| number.parse().expect("a number"))
}

/// Of an empty list: 19 where the species is known and is 6, "after 2 and before 4"; else what asking for the pointer's
/// value is refused for (20, 1, 2, 4), then the work permit.
fn judged_without_elements(desk: &mut Desk, user: u32, entry: u32, pointer: u32, needs_permit: bool) -> u32 {
    if answer(desk, &format!("species {} {}", user, entry)) == "done 6" {
        return 19;
    }
    if let Some(number) = refusal(&answer(desk, &format!("value {} {} {}", user, entry, pointer))) {
        return number;
    }
    let permitted = answer(desk, &format!("permit {} {}", user, entry)) == "done 1";
    if needs_permit && !permitted {
        5
    } else {
        0
    }
}

fn write_one_by_one(desk: &mut Desk, user: u32, entry: u32, pointer: u32, list: usize) -> String {
    let length = desk.lent(BufferName::List(list));
    if length == 0 {
        return format!("rest 0 {}", judged_without_elements(desk, user, entry, pointer, true));
    }
    for written in 0..length {
        let element = desk.cells(BufferName::List(list))[written];
        let said = answer(desk, &format!("write {} {} {} {}", user, entry, pointer, element));
        if let Some(number) = refusal(&said) {
            return format!("rest {} {}", length - written, number);
        }
    }
    "rest 0 0".to_string()
}

fn fill_one_by_one(desk: &mut Desk, user: u32, entry: u32, pointer: u32, list: usize) -> String {
    let length = desk.lent(BufferName::List(list));
    if length == 0 {
        return format!("filled 0 {}", judged_without_elements(desk, user, entry, pointer, pointer == 0));
    }
    for filled in 0..length {
        let said = answer(desk, &format!("next {} {} {}", user, entry, pointer));
        match said.strip_prefix("done ") {
            Some(element) => answer(desk, &format!("poke list{} {} {}", list, filled, element)),
            None => return format!("filled {} {}", filled, refusal(&said).expect("done or refused")),
        };
    }
    format!("filled {} 0", length)
}

fn answer_one_by_one(desk: &mut Desk, line: &[u8]) -> Option<String> {
    match Line::read(line) {
        Ok(Line::Writes(user, entry, pointer, list)) => Some(write_one_by_one(desk, user, entry, pointer, list)),
        Ok(Line::Nexts(user, entry, pointer, list)) => Some(fill_one_by_one(desk, user, entry, pointer, list)),
        _ => desk.answer(line),
    }
}

fn sums(desk: &mut Desk) -> [String; 4] {
    ["sum store", "sum tables", "sum list0", "sum list1"].map(|line| answer(desk, line))
}

#[test]
fn runs_equal_single_calls() {
    for (word, mode) in Mode::ALL {
        let (mut desk, mut other) = (Desk::new(), Desk::new());
        let mut runs = 0;
        for line in history(31, 4_000, mode) {
            let shown = String::from_utf8_lossy(&line);
            let said = desk.answer(&line);
            assert_eq!(said, answer_one_by_one(&mut other, &line), "{}: {}", word, shown);
            if matches!(Line::read(&line), Ok(Line::Writes(..) | Line::Nexts(..))) {
                assert_eq!(sums(&mut desk), sums(&mut other), "{}: {}", word, shown);
                runs += 1;
            }
        }
        // Histories of moves have few runs.
        let least = if mode == Mode::Moves { 30 } else { 100 };
        assert!(runs > least, "{}: {} runs", word, runs);
    }
}
