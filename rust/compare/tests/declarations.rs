//! Nothing but this holds the three declarations of the door against each other: the Rattle source, the header and the crate.

use dorrivand::{Refusal, Species, VERSION};
use std::collections::BTreeMap;
use std::fs;
use std::path::{Path, PathBuf};

/// An export's arguments in order, name and type, and the type of its result, as Rattle and Rust write them.
#[derive(PartialEq, Eq, Debug)]
struct Signature {
    arguments: Vec<(String, String)>,
    result: String,
}

/// The signatures by the exports' names.
type Exports = BTreeMap<String, Signature>;

/// Types of C and of Rust.
const RESULTS: [(&str, &str); 4] = [("uint64_t", "u64"), ("int64_t", "i64"), ("uint32_t", "u32"), ("size_t", "usize")];

fn repository() -> PathBuf {
    Path::new(env!("CARGO_MANIFEST_DIR")).join("../..")
}

fn text_of(path: &Path) -> String {
    fs::read_to_string(path).unwrap_or_else(|error| panic!("{}: {error}", path.display()))
}

fn header(name: &str) -> String {
    text_of(&repository().join("include").join(name))
}

/// The exports' names where `before` stands in front of them, what stands between the parentheses that follow, and the rest.
fn exports<'a>(text: &'a str, before: &str) -> Vec<(String, &'a str, &'a str)> {
    let starts = text.split(before).skip(1).filter(|rest| rest.starts_with("dorrivand_"));
    let declared = starts.map(|rest| {
        let (name, rest) = rest.split_once('(').expect("an export has arguments");
        let (arguments, rest) = rest.split_once(')').expect("arguments end");
        (name.to_string(), arguments, rest)
    });
    declared.collect()
}

fn parts(arguments: &str) -> impl Iterator<Item = &str> {
    arguments.split(',').map(str::trim).filter(|argument| !argument.is_empty())
}

/// "dorrivand_fresh(store: &[u32], tables: &mut [u32]) -> u64", as Rattle and the crate write it.
fn in_rust(text: &str, before: &str) -> Exports {
    let declared = exports(text, before).into_iter().map(|(name, arguments, rest)| {
        let pairs = parts(arguments).map(|argument| argument.split_once(": ").expect("an argument has a type"));
        let arguments = pairs.map(|(name, kind)| (name.to_string(), kind.to_string())).collect();
        let result = rest.strip_prefix(" -> ").expect("a result").split([';', '\n']).next().expect("its type");
        (name, Signature { arguments, result: result.to_string() })
    });
    declared.collect()
}

/// "uint32_t *store, size_t store_length, uint32_t *place": a pointer is a slice's where its length follows, else a place's.
fn typed_in_c(arguments: &str) -> Vec<(String, String)> {
    let mut found = Vec::<(String, String)>::new();
    let mut arguments = parts(arguments).filter(|&argument| argument != "void").peekable();
    while let Some(argument) = arguments.next() {
        let (kind, name) = argument.rsplit_once(' ').expect("an argument has a type");
        let (name, is_pointer) = name.strip_prefix('*').map_or((name, false), |name| (name, true));
        let has_length = arguments.next_if(|next| *next == format!("size_t {name}_length")).is_some();
        let kind = match (kind, is_pointer, has_length) {
            ("const uint32_t", true, true) => "&[u32]",
            ("uint32_t", true, true) => "&mut [u32]",
            ("const uint8_t", true, true) => "&[u8]",
            ("uint32_t", true, false) => "&mut u32",
            ("uint32_t", false, false) => "u32",
            ("int32_t", false, false) => "i32",
            other => panic!("what is {other:?}, {name}?"),
        };
        found.push((name.to_string(), kind.to_string()));
    }
    found
}

/// The texts of all files of a folder of the repository, one after another.
fn texts_in(folder: &str) -> String {
    let folder = repository().join(folder);
    let files = fs::read_dir(&folder).unwrap_or_else(|error| panic!("{}: {error}", folder.display()));
    files.map(|file| text_of(&file.expect("a file of the folder").path())).collect()
}

fn in_rattle() -> Exports {
    in_rust(&texts_in("crates/door/src"), "extern \"C\" fn ")
}

fn in_the_crate() -> Exports {
    let text = text_of(&repository().join("rust/src/door.rs"));
    let (_, list) = text.split_once("door! {\n").expect("the list of exports");
    in_rust(list, " = ")
}

/// In the header and those that it includes.
fn in_the_headers() -> Exports {
    let text = texts_in("include");
    let mut found = Exports::new();
    for (in_c, result) in RESULTS {
        let declared = exports(&text, &format!("\n{in_c} "));
        found.extend(declared.into_iter().map(|(name, arguments, _)| {
            (name, Signature { arguments: typed_in_c(arguments), result: result.to_string() })
        }));
    }
    found
}

/// A call can be refused: an answer of 64 bits says so, or a run's place. The other exports cannot.
fn is_call(export: &Signature) -> bool {
    let has_place = export.arguments.iter().any(|(name, _)| name == "place");
    has_place || ["u64", "i64"].contains(&export.result.as_str())
}

#[test]
fn the_three_declarations_agree() {
    let rattle = in_rattle();
    assert_eq!(rattle.values().filter(|export| is_call(export)).count(), compare::line::CALLS.len());
    for (whose, others) in [("the crate's", in_the_crate()), ("the headers'", in_the_headers())] {
        for name in rattle.keys().chain(others.keys()) {
            assert_eq!(rattle.get(name), others.get(name), "Rattle's {name}, and {whose}");
        }
    }
}

/// The header's name of a refusal or a species, from the crate's: NotNow, DORRIVAND_NOT_NOW; Bits16, DORRIVAND_BITS_16.
fn name_in_c(name: &str) -> String {
    let mut in_c = String::from("DORRIVAND");
    let mut after_digit = false;
    for letter in name.chars() {
        if letter.is_uppercase() || (letter.is_ascii_digit() && !after_digit) {
            in_c.push('_');
        }
        after_digit = letter.is_ascii_digit();
        in_c.extend(letter.to_uppercase());
    }
    in_c
}

/// The names and numbers of an enum of the header.
fn constants(text: &str, name: &str) -> Vec<(String, u32)> {
    let (_, body) = text.split_once(&format!("enum {name} {{")).expect("the enum");
    let (body, _) = body.split_once('}').expect("its end");
    let pairs = parts(body).map(|constant| constant.split_once(" = ").expect("a number"));
    pairs.map(|(name, number)| (name.to_string(), number.parse().expect("digits"))).collect()
}

#[test]
fn the_refusals_have_one_number_and_one_text() {
    let text = header("dorrivand_answers.h");
    let wanted = Refusal::ALL.iter().map(|refusal| (name_in_c(&format!("{refusal:?}")), refusal.number()));
    assert_eq!(constants(&text, "dorrivand_refusal"), wanted.collect::<Vec<_>>());
    let cases: Vec<&str> = text.lines().map(str::trim).filter(|line| line.starts_with("case ")).collect();
    let wanted = Refusal::ALL
        .iter()
        .map(|refusal| format!("case {}: return \"{refusal}\";", name_in_c(&format!("{refusal:?}"))));
    assert_eq!(cases, wanted.collect::<Vec<_>>());

    let histories = text_of(&repository().join("histories/README.md"));
    for refusal in Refusal::ALL {
        let row = format!("| {} | {refusal} |", refusal.number());
        assert!(histories.contains(&row), "histories/README.md has no {row}");
    }
}

/// The numbers that stand behind a mark at a line's end.
fn numbers_behind(mark: &str, text: &str) -> Vec<u32> {
    let found = text.lines().filter_map(|line| line.split_once(mark)?.1.trim_end_matches(',').parse().ok());
    found.collect()
}

#[test]
fn the_refusals_have_the_same_numbers_in_rattle_and_in_second() {
    let wanted: Vec<u32> = Refusal::ALL.iter().map(|refusal| refusal.number()).collect();
    let rattle = text_of(&repository().join("crates/answers/src/lib.rt"));
    assert_eq!(numbers_behind(" => ", &rattle), wanted);
    let second = text_of(&repository().join("second/src/rules/refusal.rs"));
    assert_eq!(numbers_behind(" = ", &second), wanted);
}

#[test]
fn each_call_has_its_line_in_the_readme_of_histories() {
    let histories = text_of(&repository().join("histories/README.md"));
    for call in compare::line::CALLS {
        let line = histories.split('`').any(|code| code == call || code.starts_with(&format!("{call} ")));
        assert!(line, "histories/README.md has no {call}");
    }
}

#[test]
fn species_pointers_and_version_have_one_number() {
    let text = header("dorrivand.h");
    let wanted = Species::ALL.iter().map(|species| (name_in_c(&format!("{species:?}")), species.number()));
    assert_eq!(constants(&text, "dorrivand_species"), wanted.collect::<Vec<_>>());
    let pointers = constants(&text, "dorrivand_pointer").into_iter().map(|(_, number)| number);
    use dorrivand::pointer::{BEGIN, END, WORK};
    assert_eq!(pointers.collect::<Vec<_>>(), [BEGIN, END, WORK]);
    assert!(text.contains(&format!("\n#define DORRIVAND_VERSION {VERSION}\n")));
}
