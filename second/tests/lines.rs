//! What is a line, what is none, and that any bytes at all are read to their end.

mod common;

use common::bad_lines::BAD;
use common::{answer, check, fresh_desk};
use std::io::Write;
use std::process::{Command, Stdio};

#[test]
fn bad_lines_change_nothing() {
    let mut desk = fresh_desk(640);
    check(&mut desk, &[("sum tables", "sum 2095095467")]);
    for line in BAD {
        let answer = answer(&mut desk, line);
        assert!(answer.starts_with('?') && !answer.contains('\n'), "{:?}: {}", line, answer);
    }
    check(&mut desk, &[("sum tables", "sum 2095095467"), ("sum store", "sum 0"), ("free 0", "done 10")]);
    check(&mut desk, &[("sum list0", "sum 0"), ("writes 8 0 1 0", "rest 40 1"), ("writes 8 0 1 1", "rest 40 1")]);
}

/// 32 calls and the four lines for tests.
const GOOD_LINES: usize = 36;

#[test]
fn help_lists_good_lines() {
    let help = answer(&mut fresh_desk(640), "help");
    let listed: Vec<&str> = help.trim_start_matches("? ").split("; ").collect();
    let first_words: std::collections::BTreeSet<_> = listed.iter().map(|line| line.split(' ').next()).collect();
    assert_eq!(first_words.len(), GOOD_LINES);
    for line in listed {
        let words = line.split(' ').map(|word| match word {
            "BUFFER" => "store",
            "U" | "E" | "S" | "P" | "X" | "K" | "I" | "N" | "V" | "L" => "0",
            // "A line that names one buffer twice where two are lent is a bad line."
            "J" => "1",
            word => word,
        });
        let line = words.collect::<Vec<_>>().join(" ");
        assert!(!answer(&mut fresh_desk(640), &line).starts_with('?'), "{}", line);
    }
}

#[test]
fn lines_passed_over() {
    let mut desk = fresh_desk(640);
    assert_eq!(desk.answer(b""), None);
    assert_eq!(desk.answer(b"#"), None);
    assert_eq!(desk.answer(b"#fresh"), None);
}

#[test]
fn odd_lines_that_are_good() {
    let mut desk = fresh_desk(640);
    check(
        &mut desk,
        &[("free 0000000007", "done 10"), ("free 4294967295", "refused 1"), ("save 0000000003", "done 0")],
    );
    check(&mut desk, &[("write 9 7 4294967295 1", "refused 1"), ("write 7 9 4294967295 1", "refused 2")]);
    check(&mut desk, &[("write_signed 9 7 4294967295 -1", "refused 1"), ("next_signed 7 9 4294967295", "refused 2")]);
    check(&mut desk, &[("prev_signed 0000000009 0 0", "refused 1"), ("write_signed 0 0 0 -0000000000", "refused 2")]);
    check(&mut desk, &[("writes 9 7 4294967295 1", "rest 40 1"), ("nexts 7 9 4294967295 0", "filled 0 2")]);
    check(&mut desk, &[("writes 0 0 0 0000000001", "rest 40 2"), ("nexts 0000000009 0 0 01", "filled 0 1")]);
    check(&mut desk, &[("up 0 1 4294967295", "refused 22"), ("down 0000000003 02 0000000010", "refused 22")]);
    check(&mut desk, &[("lend list0 2112", "lent 2112"), ("peek list0 2111", "cell 0"), ("sum list0", "sum 0")]);
    check(&mut desk, &[("work 0 0", "refused 15"), ("work 0 0 ", "refused 15"), ("work 0 0   a", "refused 11")]);
    check(&mut desk, &[("lend store 0", "lent 0"), ("sum store", "sum 0"), ("lend store 65600", "lent 65600")]);
    check(&mut desk, &[("lend tables 4994", "lent 4994"), ("poke tables 4993 1", "cell 1"), ("fresh", "refused 20")]);
    check(&mut desk, &[("lend tables 4993", "lent 4993"), ("fresh", "done 0"), ("peek tables 4993", "cell 1")]);
}

fn run_second(input: &[u8]) -> Vec<String> {
    let mut child = Command::new(env!("CARGO_BIN_EXE_second"))
        .stdin(Stdio::piped())
        .stdout(Stdio::piped())
        .spawn()
        .expect("the program starts");
    let mut pipe = child.stdin.take().expect("a pipe");
    let input = input.to_vec();
    let writer = std::thread::spawn(move || pipe.write_all(&input));
    let output = child.wait_with_output().expect("the program ends");
    writer.join().expect("no panic").expect("all was read");
    assert!(output.status.success());
    let text = String::from_utf8(output.stdout).expect("answers are text");
    text.lines().map(str::to_string).collect()
}

#[test]
fn any_bytes_on_standard_input() {
    let mut input = b"fresh\n\n# no answer\n\x00\xFF\xFE\nfree 0\r\n".to_vec();
    input.extend(std::iter::repeat(b'x').take(3_000_000));
    input.extend(b"\nread 0 0 ");
    input.extend(std::iter::repeat(b' ').take(3_000_000));
    input.extend(b"q\nfree 3");
    let answers = run_second(&input);
    assert_eq!(answers.len(), 6);
    assert_eq!(answers[0], "done 0");
    assert!(answers[1..4].iter().all(|answer| answer.starts_with('?')));
    assert_eq!(answers[4..], ["refused 11", "done 1024"]);
}

#[test]
fn no_input_at_all() {
    assert!(run_second(b"").is_empty());
    assert!(run_second(b"\n\n\n").is_empty());
}
