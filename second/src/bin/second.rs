//! Reads a history from standard input and writes the answers to standard output.

use filing::text::answering::Desk;
use std::io::{self, BufRead, BufReader, BufWriter, Write};

fn main() -> io::Result<()> {
    let mut input = BufReader::new(io::stdin().lock());
    let mut output = BufWriter::new(io::stdout().lock());
    let mut desk = Desk::new();
    let mut line = Vec::new();
    // "A line ends at a newline (byte 10); the last one may lack it."
    while input.read_until(b'\n', &mut line)? > 0 {
        if line.last() == Some(&b'\n') {
            line.pop();
        }
        if let Some(answer) = desk.answer(&line) {
            writeln!(output, "{}", answer)?;
        }
        // Who types the lines by hand waits for an answer before the next one.
        if input.buffer().is_empty() {
            output.flush()?;
        }
        line.clear();
    }
    output.flush()
}
