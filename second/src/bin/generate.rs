//! Prints a long mixed history: `generate SEED COUNT [MODE]`.

use filing::telling::{history, mode::Mode};
use std::env;
use std::io::{self, BufWriter, Write};
use std::process::ExitCode;

struct Wish {
    seed: u64,
    count: usize,
    mode: Mode,
}

fn wish(arguments: &[String]) -> Option<Wish> {
    let (seed, count, mode) = match arguments {
        [seed, count] => (seed, count, Mode::Mixed),
        [seed, count, mode] => (seed, count, Mode::from_word(mode)?),
        _ => return None,
    };
    Some(Wish { seed: seed.parse().ok()?, count: count.parse().ok()?, mode })
}

fn print(wish: &Wish) -> io::Result<()> {
    let mut output = BufWriter::new(io::stdout().lock());
    for line in history(wish.seed, wish.count, wish.mode) {
        output.write_all(&line)?;
        output.write_all(b"\n")?;
    }
    output.flush()
}

fn main() -> ExitCode {
    let arguments: Vec<String> = env::args().skip(1).collect();
    let wish = match wish(&arguments) {
        Some(wish) => wish,
        None => {
            let modes: Vec<&str> = Mode::ALL.iter().map(|&(word, _)| word).collect();
            eprintln!("generate SEED COUNT [MODE], MODE being one of: {}", modes.join(", "));
            return ExitCode::FAILURE;
        }
    };
    match print(&wish) {
        Ok(()) => ExitCode::SUCCESS,
        Err(error) => {
            eprintln!("generate: {}", error);
            ExitCode::FAILURE
        }
    }
}
